"""The command line of the scripts here."""
import pathlib
import sys


def words(doc, least=0, most=0):
    """Returns the script's arguments, of which there must be `least` to `most`. --help prints the docstring; any other number of them ends it with status 2."""
    given = sys.argv[1:]
    if given == ["--help"]:
        print(doc.strip())
        sys.exit(0)
    if not least <= len(given) <= most or any(word.startswith("--") for word in given):
        name = pathlib.Path(sys.argv[0]).name
        print("cards/%s: %s; --help tells what it does" % (name, "no such words: %s" % " ".join(given) if given else "words are missing"), file=sys.stderr)
        sys.exit(2)
    return given
