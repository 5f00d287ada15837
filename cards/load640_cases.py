"""Test cases of the MLX90640's load. Words are in hexadecimal, as in its paper: this camera's words have no check bits."""
import random

import card640
from images import card, image_of
from stream import BIGGER_LOAD, bigger_record, bigger_tables, status, u16, u64

FULL = (768,) * 3
LONG = (776,) * 3


def load(out, name, image, expected=None, lengths=FULL, basic=card640.BASIC):
    """The expected number and place are written by hand, from the paper if it has them; None for card K, whose numbers are written by hand instead."""
    answer = card640.load(image, basic, min(lengths))
    assert expected in (None, answer.status[:2]), (name, answer.status)
    out.case(BIGGER_LOAD, name, u64(basic) + u16(*lengths) + image, status(answer.status) + bigger_record(answer.record) + bigger_tables(answer.tables))
    return answer


def words(*pairs, length=1664):
    return image_of(length, raw=pairs)


def card_k(*pairs, length=1664):
    """The paper's card K, some of its words changed."""
    example = "18EF 2FF1 5952 9D68 5454 0994 6956 5354 2363 E446 FBB5 044B F020 9797 9797 2889".split()
    own = [(16, 0x4210), (17, 0xFFBB), (32, 0x79A6), (33, 0x2F44), *((48 + k, int(w, 16)) for k, w in enumerate(example))]
    return words(*own, *pairs, length=length)


def lengths(out):
    load(out, "no bytes, from range 2^64 - 1", b"", (1, 0), basic=2**64 - 1)
    load(out, "831 zero bytes, and tables of 767 entries", bytes(831), (1, 831), (767,) * 3)
    load(out, "1663 bytes of 0xFF", b"\xFF" * 1663, (1, 1663), LONG)
    load(out, "a wiped card, 1664 zero bytes", bytes(1664), (0, 0))
    load(out, "1665 bytes, and tables of 776 entries", card_k((831, 0x041E), length=1665), (0, 0), LONG)
    load(out, "767 entries of offsets", card_k(), (2, 0), (767, 776, 768))
    load(out, "767 entries of alpha, and a blank card", b"\xFF" * 1664, (2, 0), (768, 767, 776))
    load(out, "767 entries of K_Ta, from range 4", card_k(), (2, 0), (776, 768, 767), 4)


def example(out):
    answer = load(out, "card K", card_k())
    r, (offsets, alpha, k_ta) = answer.record, answer.tables
    assert set(offsets) == {-69} and set(alpha) == {0x33BD1000}
    assert [k_ta[p] for p in (0, 1, 32, 33)] == [card640.exact(n, 14) for n in (105, 83, 86, 84)]
    assert r["k_v"] == [card640.exact(n, 3) for n in (5, 4, 5, 4)] and r["alpha_cp"] == [0x318C0000, 0x31845800]
    assert r["k_s_to"] == [0xBA520000] * 4 and (r["k_v_dd"], r["v_dd_25"]) == (-3168, -13056)
    assert r["corners"] == [-40, 0, 160, 320] and r["offset_cp"] == [-75, -77] and r["gradient"] == 0x3F800000
    load(out, "card K from range 4", card_k(), (6, 4), basic=4)
    load(out, "card K from range 2^64 - 1", card_k(), (6, 2**64 - 1), basic=2**64 - 1)
    # a zero step: corners 0, 0, 0
    load(out, "card K without gradient, steps and corrections, from range 3", card_k((53, 0), (60, 0xF000), (63, 0x4889)), (0, 0), basic=3)


def outside(out):
    """Numbers of a pixel near the ends of i16."""
    load(out, "a blank card, all 0xFF", b"\xFF" * 1664, (5, 0))
    load(out, "an offset of 32768 by its row", words((17, 0x7FFF), (18, 1)), (5, 0))
    load(out, "an offset of 32768 by its column", words((17, 0x7FFF), (24, 1)), (5, 0))
    load(out, "an offset of 32768 by its rest, from range 4", words((17, 0x7FFF), (64, 0x0400)), (5, 0), basic=4)
    load(out, "offset: only pixel 0 comes back into i16", words((17, 0x7FFF), (18, 1), (24, 0x000F)), (5, 1))
    load(out, "offset: row coefficient 4 times 2^13", words((16, 0x0D00), (18, 4)), (5, 0))
    load(out, "offset: row coefficient 2 times 2^15", words((16, 0x0F00), (18, 2)), (5, 0))
    load(out, "offset: rest 16 times 2^11", words((16, 0x000B), (64, 0x4000)), (5, 0))
    load(out, "alpha: base 32768", words((33, 0x7FFF), (34, 1)), (5, 0))
    load(out, "alpha: rest 16 times 2^11", words((32, 0x000B), (64, 0x0100)), (5, 0))
    load(out, "alpha: base 32768 and rest -17 times 2^11, their sum inside", words((32, 0x000B), (33, 0x7FFF), (34, 1), (64, 0x02F0)), (5, 0))
    load(out, "K_Ta: average -1 and rest -4 times 2^13", words((56, 0x000D), (54, 0xFF00), (64, 8)), (5, 0))
    load(out, "K_Ta: rest 2 times 2^14", words((56, 0x000E), (64, 4)), (5, 0))
    load(out, "a card of the other camera, cards/sound.bin", card("sound"), (5, 0))
    load(out, "offset: average 32767, row 0 less 1, column 0 and 1", words((17, 0x7FFF), (18, 0x000F), (24, 1)), (5, 32))
    load(out, "offset: average 32767, rest 1 in the last word", words((17, 0x7FFF), (831, 0x0400)), (5, 767))
    load(out, "offset of the last pixel, alpha of the first", words((17, 0x7FFF), (831, 0x0400), (33, 0x7FFF), (34, 1)), (5, 0))


def inside(out):
    answer = load(out, "an offset leaves i16 on the way and comes back", words((16, 0x0F00), (17, 0xFFFF), (18, 1)), (0, 0))
    assert answer.tables[0] == [32767] * 32 + [-1] * 736
    answer = load(out, "offset: rest scale 10 with 31 and -32", words((16, 0x000A), (64, 0x7C00), (831, 0x8000)), (0, 0))
    assert answer.tables[0] == [31744] + [0] * 766 + [-32768]
    answer = load(out, "offset: row scale 12 with 7 and -8", words((16, 0x0C00), (18, 0x0007), (23, 0x8000)), (0, 0))
    assert answer.tables[0] == [28672] * 32 + [0] * 704 + [-32768] * 32
    answer = load(out, "alpha: average 32767, rest scale 10 with 31", words((32, 0x000A), (33, 0x7FFF), (64, 0x01F0)), (0, 0))
    assert answer.tables[1][0] == card640.exact(64511, 30)
    answer = load(out, "K_Ta: scale 15 with rest -1", words((56, 0x000F), (64, 0x000E)), (0, 0))
    assert answer.tables[2][0] == card640.exact(-32768, 8)


# Words 48 to 63 with each field at its highest, and at its lowest
HIGHEST = (0x7FFF, 0x7FFF, 0x7DFF, 0x7FFF, 0x7777, 0x7BDF, 0x7F7F, 0x7F7F, 0x3FF7, 0x7FFF, 0x7DFF, 0x7F7F, 0x7F7F, 0x7F7F, 0x7F7F, 0x3FFF)
LOWEST = (0x8000, 0x8000, 0x8200, 0x8000, 0x8888, 0x8420, 0x8080, 0x8080, 0x0000, 0x8000, 0x8200, 0x8080, 0x8080, 0x8080, 0x8080, 0x0000)


def ends(out):
    """Rows, columns and rests are 7, 7, 31 and 3, or -8, -8, -32 and -4; offsets and bases 32767 or -32768."""
    high = [(16, 0xFAA7), (17, 0x387F), (32, 0xFAAA), (33, 0x47FF), *((k, 0x7777) for k in (*range(18, 32), *range(34, 48)))]
    high += [*zip(range(48, 64), HIGHEST), *((64 + p, 0x7DF6) for p in range(768))]
    answer = load(out, "every field at its highest but some scales, from range 0", words(*high), (0, 0), basic=0)
    assert set(answer.tables[0]) == {32767} and set(answer.tables[1]) == {card640.exact(32767 + 31744, 45)}
    low = [(16, 0x0999), (17, 0xE000), (32, 0x099A), (33, 0xA000), *((k, 0x8888) for k in (*range(18, 32), *range(34, 48)))]
    low += [*zip(range(48, 64), LOWEST), *((64 + p, 0x8208) for p in range(768))]
    answer = load(out, "every field at its lowest but some scales, from range 2", words(*low), (0, 0), LONG, basic=2)
    assert set(answer.tables[0]) == {-32768} and set(answer.tables[1]) == {card640.exact(-65536, 30)}


def mild(draw):
    """Random words, but averages and scales with which sums stay inside i16."""
    w = [draw.randrange(65536) for _ in range(832)]
    for first in (16, 32):
        w[first] = draw.randrange(16) << 12 | draw.randrange(11) << 8 | draw.randrange(11) << 4 | draw.randrange(9)
        w[first + 1] = draw.randrange(-4000, 4000) % 65536
    w[56] = w[56] & 0xFFF0 | draw.randrange(13)
    return w


def made(out):
    for seed, basic in ((1, 0), (2, 1), (3, 2), (4, 3), (5, 1), (6, 3)):
        image = b"".join(w.to_bytes(2, "big") for w in mild(random.Random(9064000 + seed)))
        load(out, "random words with mild scales %d, from range %d" % (seed, basic), image, (0, 0), basic=basic)
    for seed in (1, 3):
        load(out, "random bytes %d" % seed, random.Random(seed).randbytes(1664), (5, 0) if seed == 1 else (0, 0))


def cases(out):
    for some in (lengths, example, outside, inside, ends, made):
        some(out)
