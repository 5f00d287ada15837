"""Cases of a card in pieces: those of cuts.py, each with "finished" at the end, and some more. To keep the stream small, the last look at tables and
bytes is left out where an earlier case has seen the same, unless it is the sound card in mixed sizes; and of the pieces that come after a reading
has ended only the first two are tried. read_pieces has all."""
import chip
from cuts import BLANK, CARDS, FIRST, MENDED, MIXED, SOUND, ZERO, damaged
from pieces import ASK, cut
from stream import KEPT, PIECES, loaded, tables, u8, u16, u32, u64

TAKE, FINISHED_EVENT, ASK_EVENT, LOOK_EVENT, SETTINGS = range(5)
FINISHED, LOOK = "finished", "look"


def answer(load):
    """The answer; None while more bytes are wanted."""
    return u8(1) if load is None else u8(0) + loaded(load)


class Given:
    """Sets the basic range and the tables' lengths for the calls that follow."""

    def __init__(self, basic=chip.BASIC, *lengths):
        self.basic, self.lengths = basic, lengths if len(lengths) == 5 else (lengths or (chip.ENTRIES,)) * 5

    def event(self):
        return u8(SETTINGS) + u64(self.basic) + u16(*self.lengths)


class Run:
    """Events and their answers."""

    def __init__(self):
        self.reading, self.given, self.filled = chip.Reading(), Given(), ([],) * 5
        self.events, self.answers = [], []

    def put(self, event, said=b""):
        self.events.append(event)
        self.answers.append(said)

    def seen(self):
        kept = self.reading.kept
        return tables(self.filled) + kept + bytes([KEPT]) * (chip.BYTES - len(kept))

    def take(self, piece):
        ended = self.reading.answer is not None
        said = self.reading.take(piece, self.given.basic, min(self.given.lengths))
        if self.reading.answer is not None and not ended:
            self.filled = said.tables
        self.put(u8(TAKE) + u16(len(piece)) + piece, answer(said))

    def do(self, event):
        if isinstance(event, bytes):
            self.take(event)
        elif event == FINISHED:
            self.put(u8(FINISHED_EVENT), answer(self.reading.finished()))
        elif event == ASK:
            self.put(u8(ASK_EVENT), u32(len(self.reading.kept)) + answer(self.reading.answer))
        elif event == LOOK:
            self.put(u8(LOOK_EVENT), self.seen())
        else:
            self.given = Given(*event) if isinstance(event, tuple) else event
            self.put(self.given.event())


def done(events):
    run, late = Run(), 0
    for event in events:
        late += isinstance(event, bytes) and run.reading.answer is not None
        if late <= 2 or not isinstance(event, bytes):
            run.do(event)
    return run


def case(out, name, run):
    out.case(PIECES, name, b"".join(run.events), b"".join(run.answers))


EACH_SHORT = [event for table in range(5) for event in (Given(2, *[191 if k == table else 192 for k in range(5)]), SOUND[1663:])]
WIDE = Given(2**64 - 1, 200, 200, 200, 200, 200)


def cases(out):
    seen = set()
    for name, pieces in CARDS:
        run = done([*pieces, FINISHED])
        if run.seen() not in seen or name.startswith("cards/sound.bin in " + MIXED):
            seen.add(run.seen())
            run.do(LOOK)
        case(out, name, run)
    for name, events in (
        ("no call, then finished twice and a piece", [ASK, FINISHED, FINISHED, SOUND[:64], ASK]),
        ("finished after 40 bytes, then more bytes", [SOUND[:40], FINISHED, SOUND[40:], ASK, FINISHED, LOOK]),
        ("finished after the last byte, then another card", [*cut(MENDED, [832]), FINISHED, ASK, BLANK, FINISHED, LOOK]),
        ("no table filled before the last byte", [SOUND[:1663], LOOK, SOUND[1663:], LOOK]),
        ("each table in turn of 191 entries for the last byte", [SOUND[:1663], *EACH_SHORT, ASK, LOOK]),
        ("range 2^64 - 1, tables of 200 entries", [WIDE, SOUND, ASK, FINISHED]),
        ("tables of 200 entries", [(2, 200), SOUND, LOOK]),
        ("a damaged word within a piece", [SOUND[:30], damaged(SOUND, FIRST)[30:64], ASK, LOOK, SOUND[34:], FINISHED]),
        ("growth 0 in range 4, range 5 but for the last byte", [(5, 192), ZERO[:1663], (2, 192), ZERO[1663:], (5, 192), ZERO[1663:], ASK]),
    ):
        case(out, name, done(events))
