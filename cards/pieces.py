"""The stream of pieces that the program read_pieces takes. A card is a list of pieces, with ASK to ask the program how far it is, and a pair of the basic
range and the tables' length to set these."""
import itertools

ASK = "ask"
FINISHED = b"\xFF\xFF"


def cut(card, sizes):
    """The card in pieces of these sizes, repeated from the first; a size may be ASK."""
    pieces = []
    for size in itertools.cycle(sizes):
        if size == ASK:
            pieces.append(ASK)
        elif card:
            pieces.append(card[:size])
            card = card[size:]
        else:
            return pieces


def written(piece):
    if piece == ASK:
        return b"\xFF\xFE"
    if isinstance(piece, tuple):
        return b"\xFF\xFD" + bytes(piece)
    return len(piece).to_bytes(2, "big") + piece


def unfinished(pieces):
    return b"".join(map(written, pieces))


def stream(pieces):
    return unfinished(pieces) + FINISHED
