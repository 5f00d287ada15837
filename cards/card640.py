"""A model of the MLX90640's load in Python: the refusal, the record and the three tables of an image. Written from its paper alone, independently of the
crates. Sums are whole numbers, and all else is exact except the range coefficients (document 02, CR 9, over four ranges), which are rounded at each step."""
import collections
import struct
from fractions import Fraction

from bigger import PIXELS, chessboard, corrections, nibbles, pattern, split
from chip import BYTES, bits, rounded, signed, words_of

BASIC = 1
RANGES = 4


def exact(x, e=0):
    """The bits of x over 2^e, which must be an exact binary32 number."""
    x = Fraction(x) / 2 ** e
    assert rounded(x) == x
    return bits(x)


def halves(word):
    """The upper and the lower byte of a word, each signed."""
    return signed(8, word >> 8), signed(8, word)


# ---- The whole numbers of a pixel

def sum_at(w, first, pixel):
    """Average plus row plus column, from the words from 16 or from 32 on."""
    row, column = divmod(pixel, 32)
    _, row_scale, column_scale, _ = nibbles(w[first])
    of_row = signed(4, w[first + 2 + row // 4] >> 4 * (row % 4))
    of_column = signed(4, w[first + 8 + column // 4] >> 4 * (column % 4))
    return signed(16, w[first + 1]) + of_row * 2 ** row_scale + of_column * 2 ** column_scale


def rests(w, pixel):
    """A pixel's rests of offset, alpha and K_Ta."""
    word = w[64 + pixel]
    return signed(6, word >> 10), signed(6, word >> 4), signed(3, word >> 1)


def k_ta_averages(w):
    return *halves(w[54]), *halves(w[55])


def whole(w, pixel):
    """The four whole numbers of a pixel: the offset; B and P of alpha; S of K_Ta."""
    offset_rest, alpha_rest, k_ta_rest = rests(w, pixel)
    offset = sum_at(w, 16, pixel) + offset_rest * 2 ** nibbles(w[16])[3]
    s = k_ta_averages(w)[chessboard(pixel)] + k_ta_rest * 2 ** nibbles(w[56])[3]
    return offset, sum_at(w, 32, pixel), alpha_rest * 2 ** nibbles(w[32])[3], s


# ---- Ranges

def k_s_to(w, range_):
    raw = halves(w[61 + range_ // 2])[1 - range_ % 2]
    return Fraction(raw, 2 ** (8 + nibbles(w[63])[3]))


def corners(w):
    step, steps3, steps2, _ = nibbles(w[63])
    step = step % 4 * 10
    return [-40, 0, steps2 * step, steps3 * step + steps2 * step]


def growth(w, range_):
    """1 + K × (T next - T own)."""
    return rounded(1 + rounded(k_s_to(w, range_) * (corners(w)[range_ + 1] - corners(w)[range_])))


def range_coefficients(w, basic):
    """The bits of all four range coefficients, computed as sign and magnitude."""
    found = [None] * RANGES
    found[basic] = False, Fraction(1)
    for range_ in range(basic + 1, RANGES):
        below, magnitude = found[range_ - 1]
        factor = growth(w, range_ - 1)
        found[range_] = below != (factor < 0), rounded(magnitude * abs(factor))
    for range_ in reversed(range(basic)):
        below, magnitude = found[range_ + 1]
        factor = growth(w, range_)
        found[range_] = below != (factor < 0), rounded(magnitude / abs(factor))
    return [bits(magnitude) | below << 31 for below, magnitude in found]


# ---- A load

def verdict(image, shortest, basic):
    """Number, place and value of the refusal."""
    if len(image) < BYTES:
        return 1, len(image), 0
    if shortest < PIXELS:
        return 2, 0, 0
    w = words_of(image)
    for pixel in range(PIXELS):
        if any(not -32768 <= number <= 32767 for number in whole(w, pixel)):
            return 5, pixel, 0
    if basic >= RANGES:
        return 6, basic, 0
    for range_ in reversed(range(basic)):
        if growth(w, range_) == 0:
            return 13, range_, 0
    return 0, 0, 0


def record(w, basic):
    """The record: whole numbers, and bits of the others."""
    k_v_dd, _ = halves(w[51])
    k_v_ptat, k_t_ptat = split(w[50])
    ratio, alpha_cp = split(w[57])
    delta, offset_cp = split(w[58])
    k_v_cp, k_ta_cp = halves(w[59])
    k_s_ta, gradient = halves(w[60])
    alpha_scale = nibbles(w[32])[0]
    resolution, k_v_scale, k_ta_scale, _ = nibbles(w[56])
    # zeros of the pattern have a sign
    pattern_bits = [struct.unpack(">I", struct.pack(">f", entry))[0] for entry in pattern(w[53])]
    return dict(
        k_v_dd=k_v_dd * 32, v_dd_25=(w[51] % 256 - 256) * 32 - 8192, resolution=resolution % 4,
        k_v_ptat=exact(k_v_ptat, 12), k_t_ptat=exact(signed(10, k_t_ptat), 3), v_ptat_25=exact(signed(16, w[49])),
        alpha_ptat=exact(nibbles(w[16])[0] // 4 + 8), gain=exact(signed(16, w[48])), k_s_ta=exact(k_s_ta, 13),
        corners=corners(w), k_s_to=[exact(k_s_to(w, range_)) for range_ in range(RANGES)], coefficients=range_coefficients(w, basic),
        alpha_cp=[exact(alpha_cp, 27 + alpha_scale), exact(alpha_cp * (1 + Fraction(ratio, 128)), 27 + alpha_scale)],
        offset_cp=[signed(10, offset_cp), signed(10, offset_cp) + delta],
        k_v_cp=exact(k_v_cp, k_v_scale), k_ta_cp=exact(k_ta_cp, 8 + k_ta_scale), gradient=exact(gradient, 5) if gradient else None,
        k_v=[exact(signed(4, nibble), k_v_scale) for nibble in nibbles(w[52])], pattern=pattern_bits, one=exact(Fraction(corrections(w[53])[2])))


# The record of a refused load
NO_RECORD = dict(
    k_v_dd=0, v_dd_25=0, resolution=0, k_v_ptat=0, k_t_ptat=0, v_ptat_25=0, alpha_ptat=0, gain=0, k_s_ta=0, corners=[0] * 4, k_s_to=[0] * 4,
    coefficients=[0] * 4, alpha_cp=[0] * 2, offset_cp=[0] * 2, k_v_cp=0, k_ta_cp=0, gradient=None, k_v=[0] * 4, pattern=[0] * 6, one=0)

# The result of a load: the refusal's number, place and value; the record; and the entries that it writes to the three tables
Load = collections.namedtuple("Load", "status record tables")


def load(image, basic=BASIC, shortest=PIXELS):
    status = verdict(image, shortest, basic)
    if status[0]:
        return Load(status, NO_RECORD, ([],) * 3)
    w = words_of(image)
    alpha_scale, k_ta_scale = nibbles(w[32])[0], nibbles(w[56])[2]
    entries = [(o, exact(b + p, 30 + alpha_scale), exact(s, 8 + k_ta_scale)) for o, b, p, s in (whole(w, pixel) for pixel in range(PIXELS))]
    return Load(status, record(w, basic), tuple(map(list, zip(*entries))))
