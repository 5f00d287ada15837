"""Test cases of loads, and of the readers of parts."""
import chip
from images import card, flipped, image_of, random_card, scale
from stream import LOAD, ROW, SUBPAGE, i32, loaded, tables, u8, u16, u64

FULL = (192,) * 5
LONG = (200,) * 5
TABLES = "offsets 0", "offsets 1", "alpha", "K_V", "K_Ta"


def load(out, name, image, lengths=FULL, basic=chip.BASIC):
    """Writes the case of a load. Returns record and tables."""
    answer = chip.load(image, basic, min(lengths))
    out.case(LOAD, name, u64(basic) + u16(*lengths) + image, loaded(answer) + tables(answer.tables))
    return answer.record, answer.tables


def short(table, length=191, others=192):
    """The lengths of tables, one of which is short; none if `table` is 0."""
    return tuple(length if table == k else others for k in range(1, 6))


def lengths(out):
    for length in (0, 1, 1663, 1664, 1665):
        load(out, "%d zero bytes" % length, image_of(length))
    load(out, "%d bytes" % len(card("long")), card("long"))
    for table, name in enumerate(TABLES, 1):
        load(out, "191 entries of " + name, image_of(), short(table))
    load(out, "no entries of K_Ta, 200 of the others", image_of(), short(5, 0, 200))
    load(out, "200 entries", image_of(), LONG)
    load(out, "192, 193, 194, 199 and 200 entries", card("sound"), (192, 193, 194, 199, 200))
    load(out, "all 0xFF", b"\xFF" * 1664, LONG)


def damage(out):
    """Damaged words: 3 is two flipped bits from 0."""
    for word in (0, 15, 16, 18, 19, 20, 21, 100, 831):
        load(out, "word %d has two flips" % word, image_of(raw=[(word, 3)]), LONG)
    load(out, "words 200 and 831 have two flips", image_of(raw=[(831, 3), (200, 0x8001)]), LONG)
    load(out, "all words have two flips, checked or not", b"\x00\x03" * 832)


PAIRS = (
    ("1 and 2", 1663, 3, 0, 0, 2),
    ("1 and 3", 1663, 6, 1, 0, 2),
    ("1 and 4", 1663, 6, 0, 1, 2),
    ("1 and 6", 1663, 6, 0, 0, 8),
    ("1 and 13", 1663, 6, 0, 0, 5),
    ("2 and 3", 1664, 5, 1, 0, 2),
    ("2 and 4", 1664, 4, 0, 1, 2),
    ("2 and 6", 1664, 3, 0, 0, 8),
    ("2 and 13", 1664, 2, 0, 0, 5),
    ("3 and 4", 1664, 6, 1, 1, 2),
    ("3 and 6", 1664, 6, 1, 0, 8),
    ("3 and 13", 1664, 6, 1, 0, 5),
    ("4 and 6", 1664, 6, 0, 1, 8),
    ("4 and 13", 1664, 6, 0, 1, 5),
    ("6 and 13", 1664, 6, 0, 0, 8),
    ("13 alone", 1664, 6, 0, 0, 5),
    ("1, 2, 3, 4 and 6", 1663, 1, 1, 1, 8),
    ("none", 1664, 6, 0, 0, 2),
)


def pairs(out):
    """Two refusals at once: the one that is tested first is returned. With basic range 5 the divisor of range 4's coefficient is 0."""
    for name, length, table, damaged, large, basic in PAIRS:
        data = scale(21 if large else 20, 0) + [(57, -1 % 2048), (58, 121)]
        image = image_of(length, data, [(830, 3)] if damaged else [])
        load(out, "grounds for refusals: " + name, image, short(table) if table < 6 else LONG, basic)


# scale, average, entry (192 times the subpage plus the pixel) and raw offset
OFFSETS = (
    (14, 0, 0, 1),
    (14, 0, 0, -2),
    (14, 0, 0, 2),
    (14, -1, 0, 2),
    (14, -1, 37, 2),
    (14, -1, 192, 2),
    (14, -1, 383, 2),
    (14, 0, 229, 1),
    (14, -1, 5, -2),
    (5, 32, 0, 1023),
    (5, -1, 383, -1024),
    (0, -1024, 191, -1024),
    (0, 1024, 0, 0),
    (5, 2047, 0, 1023),
    (5, 2047, 383, -1024),
    (0, 32767, 229, 1),
    (0, -32768, 191, -1),
    (15, 0, 0, 1),
    (20, 1, 0, 17),
    (20, -1, 1, 1),
    (20, 32767, 383, 1023),
    (20, -32768, 383, -1024),
    (21, 0, 0, 0),
)


def offsets(out):
    for s, average, entry, raw in OFFSETS:
        word = 64 + entry if entry < 192 else 640 + entry - 192
        image = image_of(1665, scale(s, average % 65536) + [(word, raw % 2048)])
        load(out, "offset scale %d, average %d, raw %d, subpage %d, pixel %d" % (s, average, raw, entry // 192, entry % 192), image)
    load(out, "offset average of overlapping words", image_of(data=[(17, 0x421), (18, 0x7FF)]))


def mended(out):
    load(out, "word 100 has one flip", image_of(1665, raw=[(100, 0x9800)]))
    load(out, "word 831 has one flip", flipped(card("sound"), [(831, 7)]))
    load(out, "all words have one flip, checked or not", flipped(card("sound"), [(word, word % 16) for word in range(832)]))
    load(out, "words 0 to 15, 19 and 20 have one flip", flipped(card("sound"), [(word, 3) for word in chip.UNCHECKED]))
    load(out, "words 30 and 700 have one flip, word 701 two", flipped(card("sound"), [(30, 0), (700, 15), (701, 4), (701, 11)]))


SHARED = [(25, 63 * 32 + 31), (26, 7 * 32 + 8), (27, 0 * 32 + 5)] + [(28 + row, 1001 + row) for row in range(6)]
SHARED += [(21, -3 % 2048), (22, 10 * 32 + 4), (23, 500), (24, 9 * 32 + 7)]
PIXELS = (0, 2047, 0x3F0), (32, 1, 0x40F), (95, 1024, 0x7FF), (96, 3, 0x01F), (159, 2046, 0x020), (191, 1999, 0x555)


def numbers(out):
    for raw, e in ((1, 0), (1, 127), (1, 128), (2047, 127), (2047, 128), (2047, 2047)):
        load(out, "alpha_CP %d over 2^%d" % (raw, e), image_of(1665, [(45, raw), (46, e)]))
    for pixel, raw, both in PIXELS:
        image = image_of(1665, SHARED + [(256 + pixel, raw), (448 + pixel, both)])
        load(out, "pixel %d has alpha %d and coefficients 0x%03X" % (pixel, raw, both), image)
    load(out, "largest scales of K_Ta and K_V", image_of(1665, [(21, 1), (22, 2047), (24, 2047), (448, 0x7E1)]))
    load(out, "every field 1023", image_of(data=[(k, 1023) for k in chip.CHECKED if k != 16]))
    load(out, "every field 1024", image_of(data=[(k, 1024) for k in chip.CHECKED if k != 16]))


K = -20, -17, -31, -7, 11, -3, -13, 23
RANGES = [(52, 15)] + list(zip((53, 54, 55, 56, 57, 59, 61, 63), (k % 2048 for k in K))) + [(58, 160), (60, 300), (62, 500)]
# the growth of ranges 4 and 5 is 0, that of range 6 is 121 minus the last corner
ZEROS = (
    ("zeros below range 7", 119, 7),
    ("zeros below range 6", 119, 6),
    ("a zero below range 5", 119, 5),
    ("zeros above range 4", 119, 4),
    ("zeros above range 4, the last below 0", 125, 4),
    ("zeros above range 2", 119, 2),
    ("a zero nearest below range 7", 121, 7),
)


def coefficients(out):
    for basic in range(9):
        load(out, "range coefficients from range %d" % basic, image_of(1665, RANGES), basic=basic)
    load(out, "range coefficients from range 2^64 - 1", image_of(1665, RANGES), basic=2**64 - 1)
    for name, last, basic in ZEROS:
        data = [(57, -1 % 2048), (58, 121), (59, 1), (60, 120), (61, -1 % 2048), (62, last)]
        load(out, "growths: " + name, image_of(1665, data), basic=basic)
    for e in (0, 127, 128):
        load(out, "K_sTo -1 over 2^%d twice" % e, image_of(1665, [(52, e), (53, -1 % 2048), (54, -1 % 2048)]))


def whole_cards(out):
    for name in ("sound", "mended", "damaged", "large", "worn"):
        load(out, "cards/%s.bin" % name, card(name))
    for seed, basic in ((1, 2), (2, 7)):
        load(out, "random data %d, from range %d" % (seed, basic), random_card(seed), basic=basic)


# ---- The readers of parts

def row(out, name, image, number):
    out.case(ROW, name, u64(number) + image, chip.alpha_row(image, number))


def rows(out):
    image = bytearray(b"\x09" * 1665)
    for word, bits in ((256, 0x0102), (287, 0x0304), (288, 0x0506), (319, 0x0708), (416, 0x0A0B), (447, 0x0C0D)):
        image[2 * word:2 * word + 2] = bits.to_bytes(2, "big")
    for number in (0, 1, 5, 6):
        row(out, "row %d of 1,665 bytes" % number, bytes(image), number)
    row(out, "row 0 of 1,663 bytes of 9", b"\x09" * 1663, 0)
    for number in (2, 3, 4, 7, 2**32, 2**58, 2**64 - 1):
        row(out, "row %d" % number, card("sound"), number)
    row(out, "row 5 of 1,663 bytes", card("sound")[:1663], 5)
    row(out, "row 0 of no bytes", b"", 0)


def subpage(out, name, number, lengths_, both):
    whole = b"".join(i32(*table) for table in both)
    part = chip.subpage_offsets(both[0][:lengths_[0]], both[1][:lengths_[1]], number)
    out.case(SUBPAGE, name, u8(number) + u16(*lengths_) + whole, i32(*part))


def subpages(out):
    """All entries differ, so that a part can be recognised by its entries."""
    both = [1000 + k for k in range(200)], [-2**31 + k for k in range(200)]
    for zero, one in ((192, 200), (191, 192), (192, 191), (0, 193), (200, 0)):
        for number in (0, 1):
            subpage(out, "subpage %d of tables of %d and %d entries" % (number, zero, one), number, (zero, one), both)


def cases(out):
    for some in (lengths, damage, pairs, offsets, mended, numbers, coefficients, whole_cards, rows, subpages):
        some(out)
