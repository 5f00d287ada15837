"""Test cases of the MLX90640's frame calls, plain and filtered, and of the call that writes a mask."""
import random
import struct

import card640
import frame as model
import frame640
from bigger import PIXELS
from frame import KELVIN, bits, div, f32, number, root, sub
from frame640 import CHESS, INTERLEAVE
from frame_cases import ALL, AVERAGE, BOTH, NOT_YET, ODD, ONWARD, Calls, first_bytes, last_bytes, real
from load640_cases import LONG, card_k, load, words
from stream import BIGGER_ENTRIES, BIGGER_FILTERED_INFRARED, BIGGER_FILTERED_ONE_PASS, BIGGER_FILTERED_SECOND_PASS, BIGGER_INFRARED, BIGGER_MASK
from stream import BIGGER_ONE_PASS, BIGGER_SECOND_PASS, BIGGER_TEMPERATURES, KEPT, MLX90640, NAN, bigger_record, bigger_tables, status, u8, u16

PATTERNS = {"chess": CHESS, "interleave": INTERLEAVE}
HALVES = [(name, pattern, subpage) for name, pattern in PATTERNS.items() for subpage in (0, 1)]


# ---- Frames and calls

def camera_bytes(camera):
    return bigger_record(camera[0]) + bigger_tables(camera[1])


def frame_bytes(frame):
    whole = first_bytes(frame) + u8(frame["pattern"]) + last_bytes(frame)
    assert len(whole) == 5481
    return whole


class BiggerCalls(Calls):
    sensor, differs = MLX90640, frame640.MLX90640
    plain = {"infrared": BIGGER_INFRARED, "one pass": BIGGER_ONE_PASS, "second pass": BIGGER_SECOND_PASS}
    filtered = {"infrared": BIGGER_FILTERED_INFRARED, "one pass": BIGGER_FILTERED_ONE_PASS, "second pass": BIGGER_FILTERED_SECOND_PASS}
    from_infrared = BIGGER_TEMPERATURES
    camera_bytes, frame_bytes = staticmethod(camera_bytes), staticmethod(frame_bytes)


def table(rest, entries):
    return [entries.get(i, rest) for i in range(BIGGER_ENTRIES)]


def readings(numbers):
    """1,552 pixel bytes."""
    return struct.pack(">776h", *numbers)


def mask(entries, rest=1):
    return bytes(table(rest, entries))


def own_mask(subpage, pattern):
    """The mask of a subpage; the entries past it are 1, but not read."""
    return frame640.mask(subpage, pattern) + bytes([1] * 8)


# The RAM words of the paper; the reflected temperature is the ambient one minus 8. Pixels 0 and 767 have readings of their own
USUAL = dict(
    emissivity=real(1), resolution_correction=real(1), v_dd_0=real(3.3), reflected=real(8), range=1, v_be=19442, ptat=1711, v_dd_pixel=-13115,
    gain=6273, cp=-54, subpage=0, given=False, pattern=CHESS, lengths=(768, 768, 768, 1536, 768, 768),
    pixels=readings(table(609, {0: -70, 767: 1900})), mask=mask({}), destination=table(77, {0: real(40), 767: real(-12.5)}))
EVERY_609 = readings([609] * BIGGER_ENTRIES)
T_A = 0x421CBCDA


def lent(short=0, pixel_bytes=1536, mask_length=768, entries=768):
    """The lengths to pass; if a table, 1 to 3, is short, its length is 767."""
    return tuple(767 if short == k else 768 for k in range(1, 4)) + (pixel_bytes, mask_length, entries)


def runs(calls, which, name, camera, t_a=T_A, filtered=None, **changes):
    """The result of each call."""
    frame = dict(USUAL, **changes)
    return [calls.temperatures(name, camera, frame, t_a) if call == "temperatures" else calls.call(call, name, camera, frame, filtered) for call in which]


def both_ways(calls, name, camera, filtered=None, **changes):
    """Infrared, and temperatures from its destination and t_a; one pass; and the second pass."""
    infrared, one_pass, second_pass = runs(calls, BOTH, name, camera, filtered=filtered, **changes)
    refusal, t_a, _, destination = infrared
    if refusal[0] == 0:
        calls.temperatures(name + ", from its infrared numbers", camera, dict(USUAL, **changes), t_a, destination)
    return infrared, one_pass, second_pass


# ---- The mask's writer

def masks(out):
    def case(name, subpage, pattern, length, refusal, written):
        left = bytes([KEPT] * (BIGGER_ENTRIES - len(written)))
        out.case(BIGGER_MASK, name, u8(subpage, pattern) + u16(length), status(refusal) + written + left)

    for name, pattern, subpage in HALVES:
        written = frame640.mask(subpage, pattern)
        assert sum(written) == 384 and sum(x != y for x, y in zip(written, frame640.mask(1 - subpage, pattern))) == 768
        for length in (768, 776):
            case("%s, subpage %d, mask of %d bytes" % (name, subpage, length), subpage, pattern, length, (0, 0, 0), written)
        for length in (767, 0):
            case("%s, subpage %d, mask of %d bytes" % (name, subpage, length), subpage, pattern, length, (2, 0, 0), b"")
    chess = [frame640.mask(subpage, CHESS) for subpage in (0, 1)]
    assert [[half[pixel] for pixel in (0, 33, 1, 32)] for half in chess] == [[1, 1, 0, 0], [0, 0, 1, 1]]


# ---- The paper's readings

# Of chess 0 and 1, and of interleave 0 and 1: infrared bits, then temperature bits
READINGS = {
    0: "44278A4C 42BE11C0 442700B8 42BD87EC 4427824C 42BE0D58 4426A8B8 42BD57A0",
    1: "44273535 42BDE300 4426ABA1 42BD593C 4427ED35 42BE4808 442713A1 42BD9250",
    3: "44273535 42BDE300 4426ABA1 42BD593C 44266D35 42BD7504 442593A1 42BCBF58",
    32: "442735C4 42BDE350 4426AC30 42BD598C 44273DC4 42BDE7B4 44266430 42BD3200",
    35: "44272E0D 42BDDF10 4426A479 42BD554C 4427F60D 42BE4CE0 44271C79 42BD9728"}


def example(calls, camera):
    for half, (name, pattern, subpage) in enumerate(HALVES):
        changes = dict(pattern=pattern, subpage=subpage, pixels=EVERY_609)
        infrared, one_pass, _ = both_ways(calls, "card K, every pixel 609, %s, subpage %d" % (name, subpage), camera, **changes)
        for pixel, wanted in READINGS.items():
            v, temperature = (int(b, 16) for b in wanted.split()[2 * half:2 * half + 2])
            assert infrared[3][pixel] == v and one_pass[3][pixel] == temperature, (name, subpage, pixel)
        assert infrared[1] == one_pass[1] == T_A
    changes = dict(pixels=EVERY_609, emissivity=real(0.95))
    infrared, one_pass, _ = both_ways(calls, "card K, every pixel 609, emissivity 0.95", camera, **changes)
    assert (infrared[3][0], one_pass[3][0]) == (0x44305BAF, 0x42C36058)


def without_gradient(calls, camera):
    for (name, pattern, subpage), pixel, wanted in ((HALVES[0], 0, (0x442DF4F7, 0x42BD2BAC)), (HALVES[3], 32, (0x442DA86F, 0x42BD0374))):
        changes = dict(pattern=pattern, subpage=subpage, pixels=EVERY_609)
        infrared, one_pass, _ = both_ways(calls, "no gradient, %s, subpage %d" % (name, subpage), camera, **changes)
        assert (infrared[3][pixel], one_pass[3][pixel]) == wanted


def signs_of_zero(calls, camera):
    """Access terms of -0 stay in interleave, and are +0 in chess."""
    changes = dict(v_be=1, ptat=0, v_dd_pixel=-16384, gain=1, cp=0, pixels=readings([0] * BIGGER_ENTRIES))
    for name, pattern, subpage in HALVES:
        infrared, *_ = runs(calls, ["infrared"], "signs of zero, %s, subpage %d" % (name, subpage), camera, pattern=pattern, subpage=subpage, **changes)
        below = [infrared[3][pixel] for pixel in (0, 3, 33, 1, 32, 35)]
        assert below == ([0x80000000] * 3 + [0] * 3 if pattern == INTERLEAVE else [0] * 6)
        assert set(infrared[3][:PIXELS]) == ({0, 0x80000000} if pattern == INTERLEAVE else {0})


def supply(calls, camera):
    told_of(calls, BOTH, "V_DD pixel 24543", camera, 0, v_dd_pixel=24543)
    told_of(calls, BOTH, "V_DD pixel 24544", camera, 7, v_dd_pixel=24544)
    told_of(calls, ["temperatures"], "V_DD pixel 24544, which is not looked at", camera, 0, v_dd_pixel=24544)


# ---- Refusals

def told_of(calls, which, name, camera, number_, place=0, **changes):
    """The expected refusals are written by hand."""
    for answered in runs(calls, which, name, camera, **changes):
        assert answered[0] == (number_, place, 0), (name, answered[0])


def lengths(calls, camera):
    for short, (name, which) in enumerate((("offsets", BOTH), ("alpha", ONWARD), ("K_Ta", BOTH)), 1):
        told_of(calls, which, "767 entries of " + name, camera, 2, lengths=lent(short))
    told_of(calls, ["infrared"], "767 entries of alpha, which infrared does not take", camera, 0, lengths=lent(2))
    told_of(calls, ["temperatures"], "of offsets, K_Ta and pixels nothing", camera, 0, lengths=(0, 768, 0, 0, 768, 768))
    told_of(calls, BOTH, "1535 pixel bytes", camera, 10, 1535, lengths=lent(pixel_bytes=1535))
    told_of(calls, ALL, "mask of 767 bytes", camera, 10, 767, lengths=lent(mask_length=767))
    told_of(calls, ALL, "destination of 767", camera, 10, 767, lengths=lent(entries=767))
    told_of(calls, BOTH, "1534 pixel bytes, destination of 766, mask of 765", camera, 10, 1534, lengths=lent(0, 1534, 765, 766))
    told_of(calls, ["temperatures"], "destination of 766, mask of 765", camera, 10, 766, lengths=lent(0, 1534, 765, 766))
    told_of(calls, ["one pass"], "everything of no length", camera, 2, lengths=(0,) * 6)
    told_of(calls, ALL, "everything longer", camera, 0, lengths=(769, 770, 776, 1537, 775, 776))


def ranges_and_divisors(calls, camera):
    told_of(calls, ONWARD, "range 4", camera, 6, 4, range=4)
    told_of(calls, ["one pass"], "range 2^64 - 1", camera, 6, 2**64 - 1, range=2**64 - 1)
    told_of(calls, ["infrared"], "range 4, of which infrared makes nothing", camera, 0, range=4)
    told_of(calls, ALL, "emissivity 0", camera, 8, emissivity=0)
    told_of(calls, ["one pass"], "emissivity not a number", camera, 8, emissivity=0xFFC00001)
    told_of(calls, BOTH, "RAM gain 0", camera, 8, gain=0)
    told_of(calls, ["temperatures"], "RAM gain 0, which is not looked at", camera, 0, gain=0)
    told_of(calls, ["infrared"], "PTAT denominator 0", camera, 8, v_be=-9 * 1711)


def correction(calls, camera):
    told_of(calls, ["infrared"], "correction 0", camera, 8, v_dd_pixel=-12288)
    told_of(calls, ["infrared"], "correction not 0", camera, 0, v_dd_pixel=-12287)


# Wrong are a short table, a destination of 767, range 4, V_DD pixel 24544 and emissivity 0; the last column is what each of ALL says
PAIRS = (
    ("2 and 10", 3, 767, 1, 24543, 1, (2, 2, 2, 10)),
    ("2 of alpha and 10", 2, 767, 1, 24543, 1, (10, 2, 2, 2)),
    ("10 and 6", 0, 767, 4, 24543, 1, (10, 10, 10, 10)),
    ("6 and 7", 0, 768, 4, 24544, 1, (7, 6, 6, 6)),
    ("7 and 8", 0, 768, 1, 24544, 0, (7, 7, 7, 8)),
    ("6 and 8", 0, 768, 4, 24543, 0, (8, 6, 6, 6)),
    ("2, 10, 6, 7 and 8", 1, 767, 4, 24544, 0, (2, 2, 2, 10)),
    ("8", 0, 768, 1, 24543, 0, (8, 8, 8, 8)),
    ("no other", 0, 768, 1, 24543, 1, (0, 0, 12, 0)),
)
# The filtered forms of these too
FILTERED_TOO = "6 and 7", "8", "no other"


def pairs(calls, camera):
    """Two refusals at once: the one that is tested first is returned. The corners of this card don't rise."""
    for ground, short, entries, k, pixel, e, wanted in PAIRS:
        name = "grounds for refusals: %s, and 12" % ground
        changes = dict(lengths=lent(short, entries=entries), range=k, v_dd_pixel=pixel, emissivity=real(e))
        answers = runs(calls, ALL, name, camera, **changes)
        if ground in FILTERED_TOO:
            answers += runs(calls, BOTH, name + ", average", camera, filtered=(AVERAGE, real(-54.0625)), **changes)
        numbers = tuple(answered[0][0] for answered in answers)
        assert numbers in (wanted, wanted + wanted[:3]), (name, numbers)
        assert all(answered[0][1] == 2 for answered in answers if answered[0][0] == 12)


def unrisen(corner):
    return lambda calls, camera: told_of(calls, ["second pass"], "corner %d as the one before it" % corner, camera, 12, corner)


# ---- Masks

def asked_for(calls, camera):
    """Masks of either subpage and pattern, on frames of their own and of the other."""
    for name, pattern, subpage in HALVES:
        runs(calls, ["one pass"], "own mask, %s, subpage %d" % (name, subpage), camera, pattern=pattern, subpage=subpage, mask=own_mask(subpage, pattern))
    runs(calls, ["infrared", "temperatures"], "mask of chess 1 on interleave 0", camera, pattern=INTERLEAVE, mask=own_mask(1, CHESS))
    runs(calls, ALL, "pixel 767 alone, subpage 1", camera, subpage=1, mask=mask({767: 255}, 0))
    runs(calls, ["one pass"], "no pixel, all behind them", camera, mask=mask({k: 1 for k in range(768, 776)}, 0), lengths=(776,) * 3 + (1552, 776, 776))
    patterns = table(0xFFFFFFFF, {0: 0x7F800001, 767: 0xFFC12345})
    runs(calls, ["infrared", "temperatures"], "not-a-numbers in the destination", camera, pattern=INTERLEAVE, subpage=1, mask=mask({0: 0}), destination=patterns)


# ---- The second pass

# Every pixel's infrared value is 1: reading 0, offset -1. t_a and the reflected temperature are -273.15, so t_ar is 0; K_sTo of the basic range is 0.
# So the final value is 1 over alpha
CORNERS = [-40, 0, 160, 320]
BENCH = dict(
    card640.NO_RECORD, k_v_dd=1, k_t_ptat=real(1), v_ptat_25=bits(KELVIN + 25), gain=real(1), corners=CORNERS,
    k_s_to=[real(k / 2**13) for k in (-8, 0, 3, 4)], coefficients=[real(c / 16) for c in (20, 16, 15, 13)])
ON_BENCH = dict(
    emissivity=real(1), reflected=bits(-KELVIN), given=True, v_be=1, ptat=0, v_dd_pixel=0, gain=1, pixels=readings([0] * BIGGER_ENTRIES))


def alpha_of(temperature):
    """An alpha with which this is the basic temperature."""
    warmth = f32(temperature + KELVIN)
    first = bits(div(1.0, f32(warmth**4)))
    return next(b for b in range(first - 9, first + 10) if root(div(1.0, number(b))) == warmth)


def beside(temperature, steps):
    """The temperature of the root that is this many steps further."""
    return sub(number(bits(f32(temperature + KELVIN)) + steps), KELVIN)


def four_ranges(calls):
    draw = random.Random(90640)
    wanted = [beside(corner, steps) for corner in CORNERS for steps in (-1, 0, 1)] + [f32(draw.uniform(-200, 900)) for _ in range(64)]
    alpha = [alpha_of(temperature) for temperature in wanted]
    alpha += [0, 0x80000000, real(-1), 0x7F800000, 0x7FC00001, 1]
    rest = alpha_of(100.0)
    camera = BENCH, ([-1] * BIGGER_ENTRIES, alpha + [rest] * (767 - len(alpha)) + [alpha_of(400.0)] * 9, [0] * BIGGER_ENTRIES)
    for name, pattern, subpage in (HALVES[0], HALVES[3]):
        changes = dict(ON_BENCH, pattern=pattern, subpage=subpage)
        one_pass, _ = runs(calls, ["one pass", "second pass"], "at each corner and beside it, %s, subpage %d" % (name, subpage), camera, **changes)
        reached = [model.range_of(CORNERS, number(b)) for b in one_pass[3][:12]]
        assert reached == [0, 0, 0, 0, 1, 1, 1, 2, 2, 2, 3, 3] and one_pass[2] == 3, (reached, one_pass[2])
    filtered = AVERAGE, real(3.5)
    runs(calls, ["second pass"], "at each corner, basic range 2, average", camera, filtered=filtered, range=2, **ON_BENCH)


# ---- A card with rows, columns and rests of its own

def own_card():
    draw = random.Random(640)
    some = [(k, draw.randrange(65536)) for k in (*range(18, 32), *range(34, 48), *range(64, 832))]
    return card_k(*some, (53, 0x1A6B), (61, 0x9783), (62, 0xA58C), (63, 0x1429))


def scene(seed, coldest, hottest):
    """Readings from a cold to a hot pixel in any order, and any mask."""
    draw = random.Random(seed)
    pixels = [coldest + (hottest - coldest) * k // 767 for k in range(768)] + [0] * 8
    draw.shuffle(pixels)
    asked = bytes(draw.choice((0, 1, 1, 2, 255)) for _ in range(776))
    return dict(pixels=readings(pixels), mask=asked, destination=[draw.getrandbits(32) for _ in range(776)])


def scenes(calls, camera):
    record, tables = camera
    assert len(set(tables[0])) > 50 and record["corners"] == [-40, 0, 20, 60]
    for seed, (name, pattern, subpage) in enumerate(HALVES, 1):
        changes = dict(scene(seed, -900, 2500 * seed), pattern=pattern, subpage=subpage)
        if seed % 2:
            changes.update(emissivity=real(0.95), resolution_correction=real(0.5), given=True, reflected=real(21.5))
        both_ways(calls, "own card, %s, subpage %d" % (name, subpage), camera, **changes)
        average = AVERAGE, real(-48.1875)
        runs(calls, BOTH, "own card, %s, subpage %d, average -48.1875" % (name, subpage), camera, filtered=average, **changes)
        if subpage:
            runs(calls, BOTH, "own card, %s, subpage 1, not yet" % name, camera, filtered=(NOT_YET, 0x42F6E979), **changes)
    changes = dict(scene(5, -900, 9000), pattern=INTERLEAVE, subpage=1)
    one_pass = model.answer("one pass", camera, dict(USUAL, **changes), differs=frame640.MLX90640)
    asked = [number(b) for b, m in zip(one_pass[3][:PIXELS], changes["mask"]) if m]
    assert {model.range_of(record["corners"], t) for t in asked} == {0, 1, 2, 3}
    runs(calls, ["second pass"], "own card, temperatures in each range", camera, **changes)
    runs(calls, BOTH, "own card, average not a number", camera, filtered=(AVERAGE, 0x7FC00000), **changes)
    for k in (0, 2, 3):
        runs(calls, ONWARD, "own card, range %d" % k, camera, range=k)


# ---- Any numbers

def odd_numbers(calls):
    """Record and tables come from the caller: they may hold any f32."""
    alpha, k_ta = ([ODD[(k // step + 3) % len(ODD)] for k in range(BIGGER_ENTRIES)] for step in (1, 17))
    record = dict(card640.load(card_k()).record, k_v=[0x7F7FFFFF, real(-1), 0x80000000, 1], pattern=[0x80000000, real(7.5), 0xFF800000, 1, NAN, real(-0.125)])
    offsets = table(-69, {0: 17825793, 1: -2**31, 33: 2**31 - 1, 767: -16777219})
    both_ways(calls, "odd numbers in record and tables", (record, (offsets, alpha, k_ta)), pattern=INTERLEAVE, subpage=1, given=True, reflected=real(-40))


def cases(out):
    masks(out)
    for name, image, on_card in (
        ("card K, tables of 776 entries", card_k(), (example, lengths, ranges_and_divisors, asked_for)),
        ("card K, word 60 0xF000", card_k((60, 0xF000)), [without_gradient]),
        ("zero but words 48, 50 and 51", words((48, 0xFFFF), (50, 1), (51, 0x0100)), [signs_of_zero]),
        ("card K, word 51 0x01FF", card_k((51, 0x01FF)), [supply]),
        ("card K, word 51 0x01FF, step 0", card_k((51, 0x01FF), (63, 0x4889)), [pairs]),
        ("zero but words 48, 50 and 51, correction 0", words((48, 1), (50, 0x8001), (51, 0x0100)), [correction]),
        ("card K, steps of corner 2 0", card_k((63, 0x2809)), [unrisen(2)]),
        ("card K, steps of corner 3 0", card_k((63, 0x2089)), [unrisen(3)]),
        ("card K with rows, columns and rests", own_card(), [scenes]),
    ):
        answer = load(out, name, image, (0, 0), lengths=LONG)
        calls = BiggerCalls()
        for some in on_card:
            some(calls, (answer.record, answer.tables))
        calls.write(out)
    calls = BiggerCalls()
    four_ranges(calls)
    odd_numbers(calls)
    wiped = card640.load(bytes(1664))
    told_of(calls, ["infrared"], "a wiped card", (wiped.record, wiped.tables), 8, v_dd_pixel=0)
    calls.write(out)
