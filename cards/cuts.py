"""Cards in pieces, to test the reader: pairs of a name and a list of pieces, in the form of pieces.py."""
import random

import chip
from images import card
from pieces import ASK, cut

SOUND, MENDED, WIPED, BLANK = map(card, ("sound", "mended", "wiped", "blank"))
FIRST, MIDDLE, LAST = 16, 400, 831


def damaged(image, *words):
    """The image with two bits of each of these words flipped."""
    for word in words:
        image = chip.stepped(image, (word, chip.words_of(image)[word] ^ 0x0204))
    return image


def mix(seed):
    return random.Random(seed).choices((0, 0, 1, 2, 3, 31, 32, 33, 62, 63, 64), k=50)


def watched(image, at, size):
    """The image cut so that the program is asked before and after the byte with this number, after the next byte, and at the end."""
    return [*cut(image[:at], [size]), ASK, image[at:at + 1], ASK, image[at + 1:at + 2], ASK, *cut(image[at + 2:], [size]), ASK]


MIXED = "mixed sizes"
SIZES = [1], [2], [63], [64], [1664]
WHOLE = [("cards/sound.bin in pieces of %d" % sizes[0], cut(SOUND, sizes)) for sizes in SIZES]
WHOLE += [("cards/sound.bin in %s, %d" % (MIXED, seed), cut(SOUND, mix(seed))) for seed in (1, 2)]
WHOLE += [("cards/mended.bin in pieces of 64", cut(MENDED, [64])), ("cards/mended.bin in " + MIXED, cut(MENDED, mix(3)))]
WHOLE += [("cards/wiped.bin in pieces of 63", cut(WIPED, [63])), ("cards/blank.bin in " + MIXED, cut(BLANK, mix(4)))]
WHOLE += [("cards/blank.bin, asked near its last byte", watched(BLANK, 1663, 64))]
WHOLE += [("cards/sound.bin in pieces of 0 and 300, asked after each", cut(SOUND, [0, 300, ASK]))]

DAMAGED = []
for word in (FIRST, MIDDLE, LAST):
    for name, sizes in (("pieces of 63", [63]), ("pieces of 64", [64]), (MIXED, mix(word))):
        DAMAGED += [("word %d damaged, in %s" % (word, name), cut(damaged(SOUND, word), sizes))]
for word in (FIRST, MIDDLE, LAST):
    DAMAGED += [("word %d damaged, asked near it" % word, watched(damaged(SOUND, word), 2 * word + 1, 64))]
DAMAGED += [("word 400 damaged, in pieces of 1", cut(damaged(SOUND, MIDDLE), [1]))]
DAMAGED += [("word 831 damaged, in pieces of 2", cut(damaged(SOUND, LAST), [2]))]
DAMAGED += [("cards/mended.bin, words 400 and 401 damaged, asked after each piece", cut(damaged(MENDED, MIDDLE, MIDDLE + 1), [64, ASK]))]
DAMAGED += [("cards/blank.bin, words 831 and 16 damaged, in one piece", cut(damaged(BLANK, LAST, FIRST), [1664]))]

# nothing of the cards before must be left for these
SHORT = [("%d bytes in pieces of 64" % size, cut(SOUND[:size], [64])) for size in (0, 1, 1663)]
SHORT += [("two empty pieces", [b"", ASK, b""]), ("asked and no piece", [ASK])]
SHORT += [("1663 bytes in mixed sizes, then an empty piece", cut(SOUND[:1663], mix(5)) + [b""])]
SHORT += [("%d bytes, word 16 damaged" % size, cut(damaged(SOUND, FIRST)[:size], [31, ASK])) for size in (33, 34, 35)]
SHORT += [("1000 bytes, word 400 damaged", cut(damaged(SOUND, MIDDLE)[:1000], [63]))]

LONG = [("1700 bytes in pieces of %d" % sizes[0], cut(SOUND + b"\xFF" * 36, sizes)) for sizes in ([64], [1700])]
LONG += [("1700 bytes in mixed sizes", cut(SOUND + b"\xFF" * 36, mix(6)))]
LONG += [("cards/mended.bin and damaged words behind it, asked there", watched(MENDED + bytes([0, 3] * 18), 1664, 63))]
LONG += [("cards/blank.bin, then cards/sound.bin", cut(BLANK + SOUND, [1664, ASK]))]
LONG += [("word 16 damaged, then cards/sound.bin", cut(damaged(SOUND, FIRST) + SOUND, [1664, ASK]))]

# words 57 as -1 and 58 as 121: 1 + K × (121 - 120) is 0 in range 4
ZERO = chip.stepped(chip.stepped(WIPED, (57, chip.encode(0x7FF))), (58, chip.encode(121)))
LAST_BYTE, LAST_TWO = cut(SOUND[:1663], [64]), cut(SOUND[:1662], mix(7))
SETTINGS = [("range 8", [(8, 192), *cut(SOUND, [64]), ASK])]
SETTINGS += [("range 255 for the last byte alone", [*LAST_BYTE, (255, 192), ASK, SOUND[1663:], (2, 192), b"", ASK])]
SETTINGS += [("range 8, but 7 for the last byte", [(8, 192), *LAST_BYTE, (7, 192), SOUND[1663:]])]
SETTINGS += [("growth 0 in range 4, from range %d" % basic, [(basic, 192), *cut(ZERO, mix(8)), ASK]) for basic in (4, 5, 7)]
SETTINGS += [("growth 0 in range 4, from range 8", [(8, 192), *cut(ZERO, [1664])]), ("offset scale 63, range 8", [(8, 192), *cut(BLANK, [63])])]
for short in (0, 191):
    pieces = [(2, short), b"", SOUND[:64], ASK, (2, 192), *cut(SOUND, [64]), (2, short), SOUND[:64], ASK]
    SETTINGS += [("tables of %d entries before and after" % short, pieces)]
LATE = [*LAST_TWO, (2, 191), SOUND[1662:], ASK, (2, 192), SOUND[1662:1663], (9, 0), SOUND[1663:], (2, 200), SOUND[1663:], ASK]
SETTINGS += [("tables of 191 entries and of none near the end, then of 200", LATE)]
SPOILT = [(9, 191), *cut(damaged(SOUND, FIRST)[:66], [33]), (9, 192), *cut(damaged(SOUND, FIRST), [33]), ASK]
SETTINGS += [("tables of 191 entries, then word 16 damaged", SPOILT), ("tables of 191 entries for the last byte", [*LAST_BYTE, (2, 191), SOUND[1663:]])]

CARDS = WHOLE + DAMAGED + SHORT + LONG + SETTINGS
