"""A model of the frame calls, by document 01 with the changes of document 02.

A binary32 number is a Python float that has its value. A sum, difference, product, quotient or square root of such numbers, taken in
binary64 and then rounded to binary32, is the exact one rounded once: binary64 has more than twice the digits and two, and so wide a range
that none of these overflows it. So a square root is the f32 nearest to the exact one, and the root of document 01 is two of those.

A camera is a record and five tables, in the form of stream.py: whole numbers, and bits. What differs for the MLX90640 is in frame640.py, and passed in.
A frame is a dict:
emissivity, resolution_correction, v_dd_0, reflected   bits; the last is the self-heating if `given` is false
range, subpage, given
v_be, ptat, v_dd_pixel, gain, cp                       the RAM words
lengths                                                the lengths passed of offsets 0, offsets 1, alpha, K_V, K_Ta, pixel bytes, mask and destination
pixels, mask, destination                              400 bytes, 200 bytes, 200 bits"""
import collections
import math
import struct

NAN = 0x7FC00000
INFINITY = math.inf


# ---- binary32

def f32(x):
    try:
        return struct.unpack(">f", struct.pack(">f", x))[0]
    except OverflowError:
        return math.copysign(INFINITY, x)


def number(bits_):
    """The number with these bits."""
    return struct.unpack(">f", bits_.to_bytes(4, "big"))[0]


def bits(x):
    return NAN if math.isnan(x) else int.from_bytes(struct.pack(">f", x), "big")


def add(x, y):
    return f32(x + y)


def sub(x, y):
    return f32(x - y)


def mul(x, y):
    return f32(x * y)


def div(x, y):
    if y != 0:
        return f32(x / y)
    if x == 0 or math.isnan(x):
        return math.nan
    return math.copysign(INFINITY, x) * math.copysign(1, y)


def root(x):
    """The fourth root, with the special cases of powf."""
    if math.isinf(x):
        return INFINITY
    if x == 0:
        return 0.0
    if math.isnan(x) or x < 0:
        return math.nan
    return f32(math.sqrt(f32(math.sqrt(x))))


def cube(x):
    return mul(mul(x, x), x)


def fourth(x):
    return mul(mul(x, x), mul(x, x))


KELVIN = f32(273.15)
assert KELVIN == 8950579 / 32768


# ---- What all pixels share

def delta_of(record, frame):
    return div(f32(frame["v_dd_pixel"] - record["v_dd_25"]), f32(record["k_v_dd"]))


def ptat_correction(record, frame):
    return add(1.0, mul(number(record["k_v_ptat"]), delta_of(record, frame)))


def ptat_denominator(record, frame):
    return add(mul(f32(frame["ptat"]), number(record["alpha_ptat"])), f32(frame["v_be"]))


def common(record, frame):
    """Gain, supply and t_a."""
    supply = add(mul(delta_of(record, frame), number(frame["resolution_correction"])), number(frame["v_dd_0"]))
    art = mul(div(f32(frame["ptat"]), ptat_denominator(record, frame)), 2.0**18)
    part = sub(div(art, ptat_correction(record, frame)), number(record["v_ptat_25"]))
    t_a = add(div(part, number(record["k_t_ptat"])), 25.0)
    return div(number(record["gain"]), f32(frame["gain"])), supply, t_a


def reflected_term(frame, t_a):
    """t_ar."""
    e, reflected = number(frame["emissivity"]), number(frame["reflected"])
    a4 = fourth(add(t_a, KELVIN))
    r4 = fourth(add(reflected if frame["given"] else sub(t_a, reflected), KELVIN))
    return a4 if e == 1 else sub(r4, div(sub(r4, a4), e))


# ---- What differs by camera

# The numbers of pixels and ranges; the tables that each call takes, by their index among the lengths; and a function from camera and frame to the values
# that are taken from the tables and by the subpage
Differs = collections.namedtuple("Differs", "pixels ranges takes taken")

# For each pixel its offset, the bits of K_V, K_Ta and alpha, and its access term; for the compensation pixel its offset, the bits of its alpha, and its
# access term
Taken = collections.namedtuple("Taken", "offsets k_v k_ta alpha access offset_cp alpha_cp access_cp")


def taken(camera, frame):
    record, (offsets0, offsets1, alpha, k_v, k_ta) = camera
    return Taken(offsets1 if frame["subpage"] else offsets0, k_v, k_ta, alpha, [0.0] * 192, record["offset_cp"], record["alpha_cp"], 0.0)


TAKES = {"infrared": (0, 1, 3, 4), "temperatures": (2,), "one pass": (0, 1, 2, 3, 4), "second pass": (0, 1, 2, 3, 4)}
MLX90641 = Differs(192, 8, TAKES, taken)


# ---- A pixel

def infrared_number(reading, gain, supply, emissivity, t_a, offset, k_v, k_ta, access):
    by_ambient = add(1.0, mul(k_ta, sub(t_a, 25.0)))
    by_supply = add(1.0, mul(k_v, sub(supply, f32(3.3))))
    part = mul(mul(f32(offset), by_ambient), by_supply)
    return div(sub(add(mul(f32(reading), gain), access), part), emissivity)


def infrared_numbers(record, taken, frame, average):
    """t_a, and v of every pixel. The average, if there is one, replaces the reading of the compensation pixel."""
    gain, supply, t_a = common(record, frame)
    e = number(frame["emissivity"])
    compensation = frame["cp"] if average is None else average
    k_v_cp, k_ta_cp = number(record["k_v_cp"]), number(record["k_ta_cp"])
    cp = infrared_number(compensation, gain, supply, e, t_a, taken.offset_cp, k_v_cp, k_ta_cp, taken.access_cp)
    pixels = len(taken.access)
    readings = struct.unpack(">%dh" % pixels, frame["pixels"][:2 * pixels])
    numbers = []
    for reading, offset, k_v, k_ta, access in zip(readings, taken.offsets, taken.k_v, taken.k_ta, taken.access):
        v = infrared_number(reading, gain, supply, e, t_a, offset, number(k_v), number(k_ta), access)
        numbers.append(v if record["gradient"] is None else sub(v, mul(number(record["gradient"]), cp)))
    return t_a, numbers


def sensitivity(record, t_a, alpha, alpha_cp):
    """A."""
    if record["gradient"] is not None:
        alpha = sub(alpha, mul(alpha_cp, number(record["gradient"])))
    return mul(alpha, add(1.0, mul(number(record["k_s_ta"]), sub(t_a, 25.0))))


def final_value(k, v, a, t_ar):
    """X."""
    s = mul(k, root(add(mul(cube(a), v), mul(fourth(a), t_ar))))
    return add(div(v, add(mul(a, sub(1.0, mul(k, KELVIN))), s)), t_ar)


def range_of(corners, temperature):
    """The range of a temperature: the last corner not above it, or 0 if there is none."""
    return max([k for k, corner in enumerate(corners) if f32(corner) <= temperature], default=0)


def ranged_value(record, basic, v, a, t_ar):
    """X of the second pass, by the numbers of the range that holds the basic temperature. Document 02, CR 9."""
    held = range_of(record["corners"], basic)
    k, t, coefficient = number(record["k_s_to"][held]), f32(record["corners"][held]), number(record["coefficients"][held])
    return add(div(v, mul(mul(a, coefficient), add(1.0, mul(k, sub(basic, t))))), t_ar)


def temperatures(record, taken, frame, t_a, numbers, second):
    t_ar, k = reflected_term(frame, t_a), number(record["k_s_to"][frame["range"]])
    found = []
    for v, alpha in zip(numbers, taken.alpha):
        a = sensitivity(record, t_a, number(alpha), number(taken.alpha_cp))
        temperature = sub(root(final_value(k, v, a, t_ar)), KELVIN)
        if second:
            lost = math.isnan(temperature)
            temperature = math.nan if lost else sub(root(ranged_value(record, temperature, v, a, t_ar)), KELVIN)
        found.append(temperature)
    return found


# ---- The gates

# Indexes among the lengths, for either camera
BYTES, MASK, DESTINATION = -3, -2, -1


def refusal(call, differs, record, frame):
    """Number, place and value of the refusal, in the order of tests 2, 10, 6, 7, 8, 12."""
    lengths, e = frame["lengths"], number(frame["emissivity"])
    if any(lengths[table] < differs.pixels for table in differs.takes[call]):
        return 2, 0, 0
    for what, least in ((BYTES, 2 * differs.pixels), (DESTINATION, differs.pixels), (MASK, differs.pixels)):
        if lengths[what] < least and not (call == "temperatures" and what == BYTES):
            return 10, lengths[what], 0
    if call != "infrared" and frame["range"] >= differs.ranges:
        return 6, frame["range"], 0
    if call != "temperatures":
        if not -32768 <= frame["v_dd_pixel"] - record["v_dd_25"] <= 32767:
            return 7, 0, 0
        if 0 in (record["k_v_dd"], frame["gain"], number(record["k_t_ptat"])):
            return 8, 0, 0
        if 0 in (ptat_correction(record, frame), ptat_denominator(record, frame)):
            return 8, 0, 0
    if e == 0 or math.isnan(e):
        return 8, 0, 0
    if call == "second pass":
        for corner in range(1, differs.ranges):
            if record["corners"][corner] <= record["corners"][corner - 1]:
                return 12, corner, 0
    return 0, 0, 0


# ---- A call

def answer(call, camera, frame, average=None, t_a=None, differs=MLX90641):
    """Number, place and value of the refusal; bits of t_a, the number of lost pixels, and the destination after the call. For temperatures t_a is the bits
    that are passed in."""
    record, destination = camera[0], list(frame["destination"])
    status = refusal(call, differs, record, frame)
    if status[0]:
        return status, 0, 0, destination
    taken = differs.taken(camera, frame)
    if call == "temperatures":
        t_a, values = number(t_a), [number(b) for b in destination[:differs.pixels]]
    else:
        t_a, values = infrared_numbers(record, taken, frame, average)
    if call != "infrared":
        values = temperatures(record, taken, frame, t_a, values, call == "second pass")
    lost = 0
    for i in range(differs.pixels):
        if frame["mask"][i]:
            destination[i] = bits(values[i])
            lost += destination[i] == NAN
    return status, bits(t_a), lost, destination


# ---- A filter of the compensation pixel: document 02, CR 11

def filtered(readings):
    """The average of the readings since the filter was new, or None."""
    return sum(readings[-16:]) / 16 if len(readings) >= 16 else None
