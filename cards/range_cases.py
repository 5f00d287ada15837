"""Test cases of the second pass, plain and filtered, in addition to those of frame_cases.py."""
import random

import frame as model
from chip import NO_RECORD
from frame import KELVIN, bits, f32, number, root, sub
from frame_cases import AVERAGE, NOT_YET, SOUND, USUAL, Calls, before, lent, readings, real, runs, sound

SECOND = ["second pass"]
CORNERS = SOUND["corners"]
INFINITY, BELOW, NOT_A_NUMBER = 0x7F800000, 0xFF800000, 0x7FC00001


# ---- A set-up in which a pixel's infrared value and its basic temperature can be chosen
#
# t_a and the reflected temperature are -273.15, so t_ar is 0. The reading is 0, the offset -1 and the supply 3.8: v is 1 + K_V / 2. With alpha 1, and
# K_sTo 0 in the basic range, v is the final value as well, and the basic temperature is its root minus 273.15.

BENCH = dict(
    NO_RECORD, k_v_dd=1, k_t_ptat=real(1), v_ptat_25=bits(KELVIN + 25), gain=real(1), corners=CORNERS,
    k_s_to=[real(k / 2**13) for k in (-8, -4, 0, -1, 3, 1, 2, 4)],
    coefficients=[real(c / 16) for c in (20, 18, 16, 15, 14, 13, 12, 11)])
ON_BENCH = dict(
    USUAL, emissivity=real(1), v_dd_0=bits(f32(3.3) + 0.5), reflected=bits(-KELVIN), given=True, range=2, v_be=1, ptat=0, v_dd_pixel=0, gain=1,
    pixels=readings([0] * 200))


def infrared(v):
    """K_V of a pixel whose infrared value is v; v, and v - 1 if it is small, must be binary32 numbers."""
    k_v = real(2 * (v - 1))
    assert f32(1 + number(k_v) / 2) == v
    return k_v


def seen(temperature):
    """An infrared value with this basic temperature."""
    warmth = f32(temperature + KELVIN)
    assert sub(warmth, KELVIN) == temperature
    first = bits(f32(warmth**4))
    return next(v for v in map(number, range(first - 9, first + 10)) if root(v) == warmth)


def beside(temperature, steps):
    """The temperature of the root that is this many steps further."""
    return sub(number(bits(f32(temperature + KELVIN)) + steps), KELVIN)


def at_corners(corners):
    """Each corner, if it is the temperature of a root, one step below it and one above; then temperatures far from them."""
    found = []
    for corner in corners:
        if -200 < corner < 1000:
            for steps in (-1, 0, 1):
                temperature = beside(corner, steps)
                assert (temperature < corner, temperature == corner, temperature > corner)[steps + 1] or corner > 238
                found.append(infrared(seen(temperature)))
    draw = random.Random(9)
    found += [infrared(f32(draw.uniform(1, 6) ** 4 * 2.0**32)) for _ in range(20)]
    found += [infrared(1024.0), infrared(2.0**100), infrared(0.0), infrared(-1.0), infrared(-2.0**36), real(2.0**127), INFINITY, BELOW, NOT_A_NUMBER]
    return found


def bench(record, k_vs):
    """Pixels without a given temperature are at 100 degrees."""
    rest = infrared(f32((100 + KELVIN) ** 4))
    k_v = k_vs + [rest] * (200 - len(k_vs))
    return dict(BENCH, **record), ([-1] * 200, [-1] * 200, [real(1)] * 200, k_v, [0] * 200)


def ranges(calls):
    camera = bench({}, at_corners(CORNERS))
    answer = model.answer("one pass", camera, ON_BENCH)
    reached = {model.range_of(CORNERS, number(b)) for b in answer[3][:192]}
    assert reached == set(range(8)) and real(80) in answer[3] and real(-40) in answer[3] and answer[2] == 5
    for call in ("infrared", "one pass", "second pass"):
        calls.call(call, "at each corner and beside it", camera, ON_BENCH)
    calls.call("second pass", "at each corner, every third pixel left", camera, dict(ON_BENCH, mask=bytes([1, 0, 255] * 67)[:200]))
    calls.call("second pass", "at each corner, subpage 1", camera, dict(ON_BENCH, subpage=1, destination=before(rest=0xFFFFFFFF)))
    calls.call("second pass", "at each corner, basic range 3", camera, dict(ON_BENCH, range=3))

    corners = [-32768, -273, -272, 0, 1, 100, 32766, 32767]
    calls.call("second pass", "corners at their ends and 1 apart", bench(dict(corners=corners), at_corners(corners)), ON_BENCH)

    # infinite final values from finite infrared values: basic temperature +infinity, which the last range holds. There is no -infinity, as no root is
    # below 0; and an infinite infrared value makes the final value NaN
    hot = [infrared(v) for v in (2.0**36, 2.0**33, -2.0**36)]
    for k in (-4, 0):
        record, (zero, one, alpha, k_v, k_ta) = bench(dict(k_s_to=BENCH["k_s_to"][:7] + [real(k / 2**13)]), hot)
        camera = record, (zero, one, [real(2.0**-100)] * 200, k_v, k_ta)
        calls.call("second pass", "basic temperature +infinity, K_sTo %d / 2^13 in range 7" % k, camera, ON_BENCH)
    assert model.answer("one pass", camera, ON_BENCH)[3][:2] == [INFINITY] * 2


def odd_records(calls):
    """The record comes from the caller: its coefficients and K_sTo may be any f32."""
    numbers = [0, 0x80000000, INFINITY, 1, real(-1), 0x7F7FFFFF, NOT_A_NUMBER, BELOW]
    pixels = at_corners(CORNERS)
    calls.call("second pass", "odd coefficients", bench(dict(coefficients=numbers), pixels), ON_BENCH)
    odd = [real(-1 / 32), 0x80000000, 0, INFINITY, 1, NOT_A_NUMBER, 0x7F7FFFFF, BELOW]
    calls.call("second pass", "odd K_sTo", bench(dict(k_s_to=odd), pixels), ON_BENCH)
    with_gradient = dict(gradient=real(0.25), alpha_cp=real(0.5), k_s_ta=real(1 / 1024))
    calls.call("second pass", "a gradient on the bench", bench(with_gradient, pixels), dict(ON_BENCH, cp=1))


# ---- Refusal 12

def unrisen(corner, fall):
    """Corners, one of which is this much below the one before it."""
    return CORNERS[:corner] + [CORNERS[corner - 1] - fall] + CORNERS[corner + 1:]


def refusals(calls):
    for corner in range(1, 8):
        calls.call("second pass", "corner %d as the one before it" % corner, sound(corners=unrisen(corner, 0)), USUAL)
    two = unrisen(3, 0)[:6] + [-32768, 300]
    for name, corners in (("corner 5 below the one before it", unrisen(5, 1)), ("corners 6 and 3 not above", two), ("all corners 0", [0] * 8)):
        calls.call("second pass", name, sound(corners=corners), USUAL)

    # the other calls do not test corners; every other refusal comes before 12
    camera = sound(v_dd_25=32736, corners=unrisen(4, 0))
    usual = dict(v_dd_pixel=-32)
    runs(calls, ["infrared", "one pass", "second pass", "temperatures"], "corner 4 as the one before it, and no other ground", camera, **usual)
    for name, changes in (
        ("2", dict(lengths=lent(2))),
        ("10", dict(lengths=lent(mask_length=191))),
        ("6", dict(range=8)),
        ("7", dict(v_dd_pixel=-33)),
        ("8 (emissivity)", dict(emissivity=0x80000000)),
        ("8 (RAM gain)", dict(gain=0)),
        ("2, 10, 6, 7 and 8", dict(lengths=lent(5, 383, 0, 0), range=2**64 - 1, v_dd_pixel=-33, gain=0, emissivity=0)),
    ):
        runs(calls, SECOND, "grounds for refusals: %s and 12" % name, camera, **dict(usual, **changes))
    for which, name in ((NOT_YET, "not yet"), (AVERAGE, "average")):
        runs(calls, SECOND, "grounds for refusal 12, " + name, camera, filtered=(which, real(-105.0625)), **usual)
        runs(calls, SECOND, "grounds for refusals: 8 and 12, " + name, camera, filtered=(which, real(-105.0625)), gain=0, **usual)


def cases(out):
    calls = Calls()
    for some in (ranges, odd_records, refusals):
        some(calls)
    calls.write(out)
