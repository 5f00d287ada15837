"""Test cases of the frame calls, plain and filtered, and of the filter. range_cases.py has more of the second pass."""
import random
import struct

import frame as model
import load_cases
from chip import NO_RECORD
from frame import KELVIN, bits, f32, number
from images import card, image_of
from stream import FILTER, FILTERED_INFRARED, FILTERED_ONE_PASS, FILTERED_SECOND_PASS, INFRARED, NAN, ONE_PASS, SECOND_PASS, TEMPERATURES
from stream import MLX90641, i16, record, tables, status, u8, u16, u32, u64

# Kinds by call, plain and filtered
PLAIN = {"infrared": INFRARED, "one pass": ONE_PASS, "second pass": SECOND_PASS}
FILTERED = {"infrared": FILTERED_INFRARED, "one pass": FILTERED_ONE_PASS, "second pass": FILTERED_SECOND_PASS}
NOT_YET, AVERAGE = 0, 1


def real(x):
    """The bits of the f32 nearest to a Python number."""
    return bits(f32(x))


# ---- The card, the tables and the frame from which most cases are made

SOUND = dict(
    k_v_dd=-3104, v_dd_25=-13056, resolution=2, k_v_ptat=real(22 / 4096), k_t_ptat=real(338 / 8), v_ptat_25=real(12273), alpha_ptat=real(1152 / 128),
    gain=real(6383), k_s_ta=real(-171 / 2**17), corners=[-40, -20, 0, 80, 120, 160, 200, 300],
    k_s_to=[real(k / 2**13) for k in (-8, -4, -2, -1, 0, 1, 2, 4)], emissivity=real(0.5), alpha_cp=real(1300 / 2**38), offset_cp=-96,
    k_v_cp=real(26 / 64), k_ta_cp=real(18 / 4096), gradient=real(13 / 64), coefficients=[real(1)] * 8)


def table(rest, entries):
    return [entries.get(i, rest) for i in range(200)]


def reals(rest, entries):
    return [real(x) for x in table(rest, entries)]


# In subpage 1 pixels 0 and 191 have offsets halfway between two f32: the even one is smaller in magnitude for the first, and larger for the other
TABLES = (
    table(-70, {0: -111, 1: 0, 191: -30}),
    table(-65, {0: 17825793, 1: -32768, 191: -16777219}),
    reals(1700 / 2**32, {0: 1610 / 2**32, 1: 1024 / 2**32, 191: 1604 / 2**32}),
    reals(410 / 1024, {0: 3 / 8, 1: 1 / 2, 191: -1 / 4}),
    reals(45 / 8192, {0: 1 / 256, 1: 0, 191: 1 / 128}))


def readings(numbers):
    """400 pixel bytes."""
    return struct.pack(">200h", *numbers)


def mask(first, rest):
    return bytes([first] + [rest] * 199)


def before(first=real(40), second=real(-12.5), rest=77):
    return [first, second] + [rest] * 198


# The reflected temperature is the ambient one minus 8
USUAL = dict(
    emissivity=real(0.9375), resolution_correction=real(0.5), v_dd_0=real(3.3), reflected=real(8), range=1, v_be=19442, ptat=1711, v_dd_pixel=-13115,
    gain=6391, cp=-105, subpage=0, given=False, lengths=(192, 192, 192, 192, 192, 384, 192, 192),
    pixels=readings(table(-515, {0: -620, 1: 0, 191: 32767})), mask=mask(1, 1), destination=before())
T_A = real(38.5)


def lent(short=0, pixel_bytes=384, mask_length=192, entries=192):
    """The lengths to pass; if a table, 1 to 5, is short, its length is 191."""
    return tuple(191 if short == k else 192 for k in range(1, 6)) + (pixel_bytes, mask_length, entries)


def camera_bytes(camera):
    return record(camera[0]) + tables(camera[1])


def first_bytes(frame):
    """The bytes that a frame of either camera begins with."""
    whole = u32(frame["emissivity"], frame["resolution_correction"], frame["v_dd_0"], frame["reflected"]) + u64(frame["range"])
    return whole + i16(frame["v_be"], frame["ptat"], frame["v_dd_pixel"], frame["gain"], frame["cp"]) + u8(frame["subpage"], frame["given"])


def last_bytes(frame):
    return u16(*frame["lengths"]) + frame["pixels"] + frame["mask"] + u32(*frame["destination"])


def frame_bytes(frame):
    whole = first_bytes(frame) + last_bytes(frame)
    assert len(whole) == 1452
    return whole


def answer_bytes(answer):
    refusal, t_a, lost, destination = answer
    return status(refusal) + u32(t_a, lost, *destination)


# ---- Calls

class Calls:
    """Calls on frames. They are grouped by camera and by frame, each in the order of its first case, so that none is written twice."""
    sensor, differs = MLX90641, model.MLX90641
    plain, filtered, from_infrared = PLAIN, FILTERED, TEMPERATURES
    camera_bytes, frame_bytes = staticmethod(camera_bytes), staticmethod(frame_bytes)

    def __init__(self):
        self.cameras = {}

    def put(self, kind, name, camera, frame, given, answer):
        frames = self.cameras.setdefault(self.camera_bytes(camera), (name, {}))[1]
        calls = frames.setdefault(self.frame_bytes(frame), (name, []))[1]
        calls.append((kind, name, given, answer_bytes(answer)))

    def call(self, call, name, camera, frame, filtered=None):
        """A filter's result is NOT_YET or AVERAGE, and the bits of the average, which do not matter if there is none yet."""
        if filtered is None:
            answer = model.answer(call, camera, frame, differs=self.differs)
            self.put(self.plain[call], name, camera, frame, b"", answer)
        else:
            answer = model.answer(call, camera, frame, number(filtered[1]) if filtered[0] else None, differs=self.differs)
            self.put(self.filtered[call], name, camera, frame, u8(filtered[0]) + u32(filtered[1]), answer)
        return answer

    def temperatures(self, name, camera, frame, t_a=T_A, destination=None):
        given = u32(t_a) if destination is None else u32(t_a, *destination)
        frame_before = frame if destination is None else dict(frame, destination=destination)
        answer = model.answer("temperatures", camera, frame_before, t_a=t_a, differs=self.differs)
        self.put(self.from_infrared, name, camera, frame, given, answer)
        return answer

    def write(self, out):
        for camera, (name, frames) in self.cameras.items():
            for frame, (frame_name, calls) in frames.items():
                for kind, call_name, given, answer in calls:
                    out.stand(self.sensor, name if camera != out.standing[self.sensor][0] else frame_name, camera, frame)
                    out.case(kind, call_name, given, answer)


BOTH = "infrared", "one pass", "second pass"
ALL = "infrared", "one pass", "second pass", "temperatures"
ONWARD = "one pass", "second pass", "temperatures"


def runs(calls, which, name, camera=(SOUND, TABLES), t_a=T_A, filtered=None, **changes):
    frame = dict(USUAL, **changes)
    for call in which:
        if call == "temperatures":
            calls.temperatures(name, camera, frame, t_a)
        else:
            calls.call(call, name, camera, frame, filtered)


def both_ways(calls, name, camera=(SOUND, TABLES), filtered=None, **changes):
    """One pass; then infrared, and temperatures from its destination and t_a; and the second pass."""
    frame = dict(USUAL, **changes)
    calls.call("one pass", name, camera, frame, filtered)
    calls.call("second pass", name, camera, frame, filtered)
    refusal, t_a, _, destination = calls.call("infrared", name, camera, frame, filtered)
    if refusal[0] == 0:
        calls.temperatures(name + ", from its infrared numbers", camera, frame, t_a, destination)


def sound(**changes):
    return dict(SOUND, **changes), TABLES


def usual_frames(calls):
    runs(calls, ALL, "usual")
    runs(calls, BOTH, "subpage 1", subpage=1)
    runs(calls, ALL, "reflected -40", given=True, reflected=real(-40))
    runs(calls, ALL, "no gradient", sound(gradient=None))
    runs(calls, ALL, "gradient 0", sound(gradient=0))
    runs(calls, BOTH, "no gradient, gain -6391", sound(gradient=None), gain=-6391)
    for k in [*range(10), 2**64 - 1]:
        runs(calls, ONWARD, "range %d" % k, range=k)
    runs(calls, ["infrared"], "range 9, of which infrared makes nothing", range=9)


def known_roots(calls):
    """X is 2^32 for the first pixel, and the temperature is what document 01 says: alpha is 1, K_sTo 0, and both temperatures are -273.15."""
    ones = NO_RECORD, (*TABLES[:2], [real(1)] * 200, *TABLES[3:])
    for name, e, second in (("2^32", 1, 0x517FFFFF), ("2^32, reflected", 0.5, real(-1))):
        changes = dict(emissivity=real(e), given=True, reflected=bits(-KELVIN), destination=before(real(2.0**32), second, 0))
        runs(calls, ["temperatures"], "final value " + name, ones, bits(-KELVIN), **changes)
        assert model.answer("temperatures", ones, dict(USUAL, **changes), t_a=bits(-KELVIN))[3][0] == bits(-561971 / 32768)


def masks_and_lengths(calls):
    for n in (0, 1, 2, 191, 200):
        runs(calls, ALL, "mask of %d bytes" % n, lengths=lent(mask_length=n))
    for first, rest in ((0, 1), (2, 0), (0, 255), (0, 0)):
        runs(calls, ALL, "mask %d, then %d" % (first, rest), mask=mask(first, rest))
    for n in (0, 1, 2, 3, 383, 384, 400):
        runs(calls, BOTH, "%d pixel bytes" % n, lengths=lent(pixel_bytes=n))
    runs(calls, ["temperatures"], "no pixel bytes", lengths=lent(pixel_bytes=0))
    for n in (0, 1, 191, 192, 200):
        runs(calls, ALL, "destination of %d" % n, lengths=lent(pixel_bytes=400, mask_length=200, entries=n))
    for n, m, k in ((383, 191, 192), (383, 192, 190), (384, 191, 190), (383, 191, 190)):
        runs(calls, ALL, "%d pixel bytes, destination of %d, mask of %d bytes" % (n, m, k), lengths=lent(0, n, k, m))
    for short, name in enumerate(load_cases.TABLES, 1):
        runs(calls, ALL, "191 entries of " + name, lengths=lent(short))
        runs(calls, BOTH, "191 entries of %s, subpage 1" % name, lengths=lent(short), subpage=1)
    runs(calls, ALL, "everything longer", lengths=(193, 194, 195, 199, 200, 385, 193, 194))
    runs(calls, ALL, "everything of no length", lengths=(0,) * 8)


# Zeros, the smallest and the largest numbers, infinities, NaNs, and some between
ODD = [0, 0x80000000, 1, 0x80000001, 0x007FFFFF, 0x00800000, 0x7F7FFFFF, 0xFF7FFFFF, 0x7F800000, 0xFF800000, 0x7FC00000, 0xFF800001]
ODD += [real(1), real(-1), real(2**36), real(-5e-7)]


def not_numbers(calls):
    patterns = before(0x7F800001, 0xFFC12345, 0xFFFFFFFF)
    for name, first, rest in (("left", 0, 0), ("asked for but the first", 0, 1), ("left but the first", 1, 0), ("asked for", 1, 1)):
        runs(calls, ALL, "not-a-numbers in the destination, " + name, mask=mask(first, rest), destination=patterns)
    for b in (0x7F800001, 0x7F800000, 0xFF800000, 0x80000000):
        runs(calls, ["temperatures"], "t_a 0x%08X" % b, t_a=b)
    calls.temperatures("odd infrared numbers", (SOUND, TABLES), USUAL, destination=(ODD * 20)[:200])
    alpha, k_v, k_ta = ([ODD[(k // step + 3) % len(ODD)] for k in range(200)] for step in (1, 3, 17))
    both_ways(calls, "odd numbers in the tables", (SOUND, (*TABLES[:2], alpha, k_v, k_ta)), mask=mask(1, 2))


def refusals(calls):
    for reference, pixel in ((32736, -32), (32736, -33), (-32, 32735), (-32, 32736)):
        runs(calls, BOTH, "V_DD25 %d, pixel %d" % (reference, pixel), sound(v_dd_25=reference), v_dd_pixel=pixel)
    for b in (0, 0x80000000, 0xFFC00001, 0x3F800000, 0xBF800000, 0x7F800000, 0xFF800000, 1):
        runs(calls, ALL, "emissivity 0x%08X" % b, emissivity=b)

    # the supply reading gives a delta of -1, unless K_VDD is 0
    half, unit = dict(k_v_ptat=real(0.5)), dict(v_dd_pixel=SOUND["v_dd_25"] + 3104)
    runs(calls, ALL, "no zero", sound(**half), **unit)
    runs(calls, ALL, "K_VDD 0", sound(**half, k_v_dd=0), **unit)
    runs(calls, ALL, "RAM gain 0", sound(**half), **unit, gain=0)
    runs(calls, ALL, "K_TPTAT 0", sound(**half, k_t_ptat=0), **unit)
    runs(calls, ALL, "K_TPTAT -0", sound(**half, k_t_ptat=0x80000000), **unit)
    runs(calls, ALL, "correction 0", sound(k_v_ptat=real(1)), **unit)
    for z in (0, -1):
        runs(calls, ALL, "PTAT denominator %d" % z, sound(**half), **unit, v_be=z - 9 * USUAL["ptat"])


# short table, destination, range, supply reading, emissivity: wrong are any short table, 191, 8, -33 and 0
PAIRS = (
    ("2 and 10", 3, 191, 1, -32, 1),
    ("2 and 6", 3, 192, 8, -32, 1),
    ("2 and 7", 1, 192, 1, -33, 1),
    ("2 and 8", 3, 192, 1, -32, 0),
    ("10 and 6", 0, 191, 8, -32, 1),
    ("10 and 7", 0, 191, 1, -33, 1),
    ("10 and 8", 0, 191, 1, -32, 0),
    ("6 and 7", 0, 192, 8, -33, 1),
    ("6 and 8", 0, 192, 8, -32, 0),
    ("7 and 8", 0, 192, 1, -33, 0),
    ("2, 10, 6, 7 and 8", 3, 191, 8, -33, 0),
    ("none", 0, 192, 1, -32, 1),
)


def pairs(calls):
    """Two refusals at once: the one that is tested first is returned."""
    for name, short, entries, k, pixel, e in PAIRS:
        changes = dict(lengths=lent(short, entries=entries), range=k, v_dd_pixel=pixel, emissivity=real(e))
        runs(calls, ALL, "grounds for refusals: " + name, sound(v_dd_25=32736), **changes)


def one_or_two(calls):
    both_ways(calls, "both ways")
    both_ways(calls, "both ways, subpage 1", subpage=1, range=3, emissivity=real(1))
    both_ways(calls, "both ways, mask 0, then 1", range=0, emissivity=real(0.5), mask=mask(0, 1))
    both_ways(calls, "both ways, range 8", range=8, emissivity=real(1))
    both_ways(calls, "both ways, emissivity 0", range=8, emissivity=0)


def filtered_frames(calls):
    """A filter's result for the compensation pixel: not yet, averages, one that is NaN, with a gradient and without."""
    both_ways(calls, "not yet", filtered=(NOT_YET, 0x42F6E979))
    for b in (0xC2D30000, 0x3D800000, 0x80000000, 0x7F800000, NAN):
        both_ways(calls, "average 0x%08X" % b, filtered=(AVERAGE, b))
    both_ways(calls, "average 0x7FC00000, no gradient", sound(gradient=None), (AVERAGE, NAN))
    both_ways(calls, "average of subpage 1", filtered=(AVERAGE, real(-99.4375)), subpage=1, range=2)
    for name, changes in (("mask 0, then 1", {}), ("range 8", dict(range=8)), ("emissivity 0", dict(range=8, emissivity=0))):
        runs(calls, BOTH, "average 0xFFC00001, " + name, filtered=(AVERAGE, 0xFFC00001), mask=mask(0, 1), **changes)
    for which in (NOT_YET, AVERAGE):
        for name, changes in (("383 pixel bytes", dict(lengths=lent(pixel_bytes=383))), ("191 entries of K_V", dict(lengths=lent(4)))):
            runs(calls, BOTH, "%s, %s" % (name, ("not yet", "average")[which]), filtered=(which, real(-105.0625)), **changes)


# ---- Frames on loaded cards

def scene(seed, coldest, hottest):
    """Readings from a cold to a hot pixel in any order, and any mask."""
    draw = random.Random(seed)
    pixels = [coldest + (hottest - coldest) * k // 191 for k in range(192)] + [0] * 8
    draw.shuffle(pixels)
    asked = bytes(draw.choice((0, 1, 1, 2, 255)) for _ in range(200))
    return dict(pixels=readings(pixels), mask=asked, destination=[draw.getrandbits(32) for _ in range(200)])


def all_zero(out):
    load = load_cases.load(out, "1,664 zero bytes from range 1", image_of(), basic=1)
    calls = Calls()
    runs(calls, ["infrared", "second pass", "temperatures"], "all-zero card, whose corners don't rise", load, v_dd_pixel=0)
    for k in range(9):
        runs(calls, ["one pass"], "all-zero card, range %d" % k, load, v_dd_pixel=0, range=k)
    calls.write(out)


def loaded(out):
    load = load_cases.load(out, "cards/sound.bin from range 2, tables of 200 entries", card("sound"), load_cases.LONG)
    calls = Calls()
    for name, changes in (
        ("subpage 0", dict(scene(1, -3000, 5000), range=2)),
        ("subpage 1, reflected 21.5", dict(scene(2, -1500, 32767), range=2, subpage=1, given=True, reflected=real(21.5), emissivity=real(0.95))),
        ("emissivity 1", dict(scene(3, -1000, 20000), range=2, emissivity=real(1), resolution_correction=real(1))),
    ):
        for more, filtered in (("", None), (", average -101.1875", (AVERAGE, real(-101.1875)))):
            both_ways(calls, "sound card, " + name + more, load, filtered, **changes)
    calls.write(out)


# ---- The filter

def filter_case(out, name, events):
    """An event is a reading, or None for a reset."""
    given, answer, pushed = [], [], []
    for reading in events:
        pushed = [] if reading is None else pushed + [reading]
        average = model.filtered(pushed)
        given.append(u8(1) if reading is None else u8(0) + i16(reading))
        answer.append(u8(average is not None) + u32(0 if average is None else bits(average)))
    out.case(FILTER, name, b"".join(given), b"".join(answer))


def grown(count):
    """The upper halves of a number that grows by 0x9E3779B9."""
    upper = [k * 0x9E3779B9 % 2**32 >> 16 for k in range(1, count + 1)]
    return [n - 65536 * (n >= 32768) for n in upper]


def filters(out):
    numbers = grown(60)
    filter_case(out, "60 readings, with a reset after 20", numbers[:20] + [None] + numbers[20:])
    for reading, times in ((-32768, 15), (-32768, 16), (32767, 40), (0, 17)):
        filter_case(out, "reading %d, %d times" % (reading, times), [reading] * times)
    filter_case(out, "no event", [])
    filter_case(out, "resets only", [None] * 3)
    filter_case(out, "a reset after 15 readings, and after 16 more", numbers[:15] + [None] + numbers[:16] + [None] + numbers[:17])
    filter_case(out, "readings that cancel", [32767, -32767] * 20)
    filter_case(out, "from the least to the greatest", [-32768] * 16 + [32767] * 16 + [-32768] * 33)


def cases(out):
    filters(out)
    all_zero(out)
    loaded(out)
    calls = Calls()
    for some in (usual_frames, known_roots, masks_and_lengths, not_numbers, refusals, pairs, one_or_two, filtered_frames):
        some(calls)
    calls.write(out)
