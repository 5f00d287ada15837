"""A model in Python of the chip word and of the calls on a card, by document 01 with the changes of document 02. Written from these documents alone,
independently of the crates, to make cards and expected results.

A number is a Fraction, or None for infinity, which no record has: a power of two from 2^128 on is only divided by, and the largest range coefficient
is below 2^124. Only K_sTo (over infinity) and range coefficients (times zero) may be -0: they are kept as bits."""
import collections
import functools
from fractions import Fraction

WORDS = 832
BYTES = 1664
ENTRIES = 192
BASIC = 2
MASKS = (0x055B, 0x066D, 0x078E, 0x07F0)


# ---- The chip word

def ones(n):
    return bin(n).count("1")


def encode(data):
    assert 0 <= data <= 2047
    word = data
    for number, mask in enumerate(MASKS):
        word |= ones(data & mask) % 2 << 11 + number
    return word | ones(word) % 2 << 15


CODEWORDS = {encode(data): data for data in range(2048)}


def flipped(word):
    """The bits of a word whose flip makes a codeword: one bit, or none."""
    near = [bit for bit in range(16) if word ^ 1 << bit in CODEWORDS]
    assert len(near) <= 1
    return near


def check(word):
    """The data of a word, or None for a damaged one: codewords are tried at distance 0, then at distance 1."""
    if word in CODEWORDS:
        return CODEWORDS[word]
    near = flipped(word)
    return CODEWORDS[word ^ 1 << near[0]] if near else None


def is_codeword(word):
    return word in CODEWORDS


def is_checked(word):
    return not (word <= 15 or word in (19, 20))


# ---- Fields

def signed(width, n):
    n %= 1 << width
    return n - (1 << width) if n >> width - 1 else n


def combined(upper, lower):
    return upper * 32 | lower


# ---- binary32

def exponent_of(x):
    """The largest e with 2^e not above the magnitude of x, but at least -126."""
    if x == 0:
        return -126
    e = abs(x.numerator).bit_length() - x.denominator.bit_length()
    return max(-126, e if abs(x) >= Fraction(2) ** e else e - 1)


def rounded(x):
    """The binary32 number nearest to x, ties to even."""
    x = Fraction(x)
    step = Fraction(2) ** (exponent_of(x) - 23)
    x = round(x / step) * step
    return None if abs(x) >= Fraction(2) ** 128 else x


def power(e):
    return Fraction(2) ** e if e < 128 else None


def over(x, e):
    return Fraction(0) if power(e) is None else rounded(rounded(x) / power(e))


def bits(x):
    """The bits of a number, but not of infinity."""
    steps = abs(x) / Fraction(2) ** (exponent_of(x) - 23)
    assert steps.denominator == 1
    steps = int(steps)
    magnitude = steps if steps < 1 << 23 else (exponent_of(x) + 127 << 23) + steps - (1 << 23)
    return magnitude | (1 << 31 if x < 0 else 0)


# ---- A load

def words_of(image):
    return [image[2 * k] * 256 + image[2 * k + 1] for k in range(WORDS)]


@functools.lru_cache(maxsize=64)
def data_of(image):
    return tuple(check(word) if is_checked(k) else 0 for k, word in enumerate(words_of(image)))


def mending(image, basic=BASIC):
    """The number of checked words that are not codewords, and the last of them, or 832; 0 and 832 for a refused card. Document 02, CR 8."""
    if verdict(image, basic=basic)[0]:
        return 0, WORDS
    flipped = [k for k, word in enumerate(words_of(image)) if is_checked(k) and not is_codeword(word)]
    return len(flipped), (flipped or [WORDS])[-1]


def verdict(image, shortest=ENTRIES, basic=BASIC):
    """Number, place and value of the refusal."""
    if len(image) < BYTES:
        return 1, len(image), 0
    if shortest < ENTRIES:
        return 2, 0, 0
    w = data_of(image)
    if None in w:
        return 3, w.index(None), words_of(image)[w.index(None)]
    if w[16] >> 5 >= 21:
        return 4, w[16] >> 5, 0
    if basic > 7:
        return 6, basic, 0
    for range_ in reversed(range(basic)):
        if growth(w, range_) == 0:
            return 13, range_, 0
    return 0, 0, 0


def offset(image, entry):
    """average + raw × 2^scale, the average 16 bits and the raw offset 11 bits signed: document 02, CR 4 and CR 10."""
    w = data_of(image)
    raw = signed(11, w[64 + entry] if entry < 192 else w[640 + entry - 192])
    return signed(16, combined(w[17], w[18])) + raw * 2 ** (w[16] >> 5)


def alpha(image, pixel):
    w = data_of(image)
    row = pixel // 32
    pair = w[25 + row // 2]
    scale = (pair >> 5 if row % 2 == 0 else pair & 31) + 20
    return rounded(rounded(Fraction(w[256 + pixel], 2047)) * over(w[28 + row], scale))


@functools.lru_cache(maxsize=4096)
def coefficient(raw, average, scales):
    return over(rounded(rounded(raw * power(scales & 31)) + signed(11, average)), scales >> 5)


def k_ta(image, pixel):
    w = data_of(image)
    return coefficient(signed(6, w[448 + pixel] >> 5), w[21], w[22])


def k_v(image, pixel):
    w = data_of(image)
    return coefficient(signed(5, w[448 + pixel]), w[23], w[24])


def alpha_cp(image):
    w = data_of(image)
    return over(w[45], w[46])


# ---- Range coefficients: document 02, CR 9

def raw_k_s_to(w, range_):
    return signed(11, w[53 + range_] if range_ < 5 else w[59 + 2 * (range_ - 5)])


def k_s_to(w, range_):
    return over(raw_k_s_to(w, range_), w[52])


def k_s_to_bits(w, range_):
    """K_sTo of a range. A negative number over infinity is -0."""
    return bits(k_s_to(w, range_)) | (raw_k_s_to(w, range_) < 0) << 31


def corner(w, range_):
    return (-40, -20, 0, 80, 120)[range_] if range_ < 5 else w[58 + 2 * (range_ - 5)]


def growth(w, range_):
    """1 + K × (T next - T own)."""
    return rounded(1 + rounded(k_s_to(w, range_) * (corner(w, range_ + 1) - corner(w, range_))))


def range_coefficients(image, basic):
    """The bits of all eight range coefficients, computed as sign and magnitude."""
    w = data_of(image)
    coefficients = [None] * 8
    coefficients[basic] = False, Fraction(1)
    for range_ in range(basic + 1, 8):
        below, magnitude = coefficients[range_ - 1]
        factor = growth(w, range_ - 1)
        coefficients[range_] = below != (factor < 0), rounded(magnitude * abs(factor))
    for range_ in reversed(range(basic)):
        below, magnitude = coefficients[range_ + 1]
        factor = growth(w, range_)
        coefficients[range_] = below != (factor < 0), rounded(magnitude / abs(factor))
    return [bits(magnitude) | below << 31 for below, magnitude in coefficients]


# ---- The record and the tables

def record(image, basic):
    """The record: whole numbers, and bits of the others."""
    w = data_of(image)
    return dict(
        k_v_dd=signed(11, w[39]) * 32, v_dd_25=signed(11, w[38]) * 32, resolution=w[51] >> 9,
        k_v_ptat=bits(over(signed(11, w[43]), 12)), k_t_ptat=bits(over(signed(11, w[42]), 3)), v_ptat_25=bits(rounded(combined(w[40], w[41]))),
        alpha_ptat=bits(over(w[44], 7)), gain=bits(rounded(combined(w[36], w[37]))), k_s_ta=bits(over(signed(11, w[34]), 15)),
        corners=[corner(w, range_) for range_ in range(8)], k_s_to=[k_s_to_bits(w, range_) for range_ in range(8)],
        emissivity=bits(over(signed(11, w[35]), 9)), alpha_cp=bits(alpha_cp(image)), offset_cp=signed(16, combined(w[47], w[48])),
        k_v_cp=bits(over(signed(6, w[50]), w[50] >> 6)), k_ta_cp=bits(over(signed(6, w[49]), w[49] >> 6)),
        gradient=bits(over(signed(9, w[51]), 6)), coefficients=range_coefficients(image, basic))


# The record of a refused load
NO_RECORD = dict(
    k_v_dd=0, v_dd_25=0, resolution=0, k_v_ptat=0, k_t_ptat=0, v_ptat_25=0, alpha_ptat=0, gain=0, k_s_ta=0, corners=[0] * 8, k_s_to=[0] * 8,
    emissivity=0, alpha_cp=0, offset_cp=0, k_v_cp=0, k_ta_cp=0, gradient=None, coefficients=[0] * 8)

# The result of a load: the refusal's number, place and value; the number of mended words, and the last of them; the record; and the entries that it
# writes to the five tables
Load = collections.namedtuple("Load", "status mended last record tables")


def refused(status):
    return Load(status, 0, WORDS, NO_RECORD, ([],) * 5)


def load(image, basic=BASIC, shortest=ENTRIES):
    status = verdict(image, shortest, basic)
    if status[0]:
        return refused(status)
    pixels = range(ENTRIES)
    offsets = [offset(image, pixel) for pixel in pixels], [offset(image, ENTRIES + pixel) for pixel in pixels]
    numbers = [[bits(number(image, pixel)) for pixel in pixels] for number in (alpha, k_v, k_ta)]
    return Load(status, *mending(image, basic), record(image, basic), (*offsets, *numbers))


# ---- The readers of parts

def alpha_row(image, row):
    """The row: 64 bytes from byte 512 + 64 × row on."""
    return image[512 + 64 * row:512 + 64 * row + 64] if row <= 5 and len(image) >= BYTES else b""


def subpage_offsets(zero, one, subpage):
    table = one if subpage else zero
    return table[:ENTRIES] if len(table) >= ENTRIES else []


# ---- A card's words as lists: document 02, CR 2

CHECKED = [k for k in range(WORDS) if is_checked(k)]
UNCHECKED = [k for k in range(WORDS) if not is_checked(k)]


def read_words(image, data_length, others_length):
    """Number, place and value of the refusal, and both lists."""
    if len(image) < BYTES:
        return (1, len(image), 0), [], []
    if data_length < len(CHECKED) or others_length < len(UNCHECKED):
        return (2, 0, 0), [], []
    data, words = data_of(image), words_of(image)
    if None in data:
        return (3, data.index(None), words[data.index(None)]), [], []
    return (0, 0, 0), [data[k] for k in CHECKED], [words[k] for k in UNCHECKED]


def write(data, others, size):
    """Number, place and value of the refusal, and the bytes that are written to an image of this size."""
    for entries, words in (data, CHECKED), (others, UNCHECKED):
        if len(entries) != len(words):
            return (1, len(entries), 0), b""
    if size < BYTES:
        return (2, 0, 0), b""
    for index, d in enumerate(data):
        if d > 2047:
            return (9, index, d), b""
    words = dict(zip(CHECKED, map(encode, data))) | dict(zip(UNCHECKED, others))
    return (0, 0, 0), b"".join(words[k].to_bytes(2, "big") for k in range(WORDS))


# ---- A burn

def burn(present, wanted):
    """Document 02, CR 7: number, place and value of the refusal, and the steps, each a word and its new value."""
    for image in present, wanted:
        if len(image) < BYTES:
            return (1, len(image), 0), []
    old, new = words_of(present), words_of(wanted)
    differing = [k for k in range(WORDS) if old[k] != new[k]]
    for k in differing:
        if not is_checked(k):
            return (11, k, 0), []
    steps = []
    for k in differing:
        steps += [(k, 0)] if old[k] else []
        steps += [(k, new[k])] if new[k] else []
    return (0, 0, 0), steps


def stepped(image, step):
    word, value = step
    return image[:2 * word] + value.to_bytes(2, "big") + image[2 * word + 2:]


def burn_call(present, wanted):
    """One call: the refusal, its step (832 and 0 for none), whether the wanted image is reached, and the present image after it."""
    refusal, steps = burn(present, wanted)
    if steps:
        present = stepped(present, steps[0])
    reached = refusal[0] == 0 and present[:BYTES] == wanted[:BYTES]
    return refusal, (steps or [(WORDS, 0)])[0], reached, present


# ---- A scrub

def scrub(image, shortest=814):
    """Document 02, CR 6: number, place and value of the refusal; the image, in which each checked word that is one flipped bit from a codeword has become
    that codeword; the changed words, and the damaged ones."""
    if len(image) < BYTES:
        return (1, len(image), 0), image, [], []
    if shortest < 814:
        return (2, 0, 0), image, [], []
    changed, damaged = [], []
    for k, word in enumerate(words_of(image)):
        if is_checked(k) and not is_codeword(word):
            data = check(word)
            (damaged if data is None else changed).append(k)
            if data is not None:
                image = stepped(image, (k, encode(data)))
    return (0, 0, 0), image, changed, damaged


# ---- A card in pieces

def heard(so_far, basic=BASIC):
    """Document 02, CR 5: the number of the bytes so far that are kept, and the result, like a load's; None while more are wanted. A word is complete with
    its second byte. Once there is a result, more bytes change neither."""
    so_far = so_far[:BYTES]
    for k in range(len(so_far) // 2):
        word = so_far[2 * k] * 256 + so_far[2 * k + 1]
        if word not in CODEWORDS and is_checked(k) and check(word) is None:
            return 2 * k + 2, refused((3, k, word))
    if len(so_far) < BYTES:
        return len(so_far), None
    return BYTES, load(so_far, basic)


class Reading:
    """A reader's state: the bytes that are kept, and the result once the reading has ended, by a piece or by finished(). Calls return a result like a
    load's, or None while more bytes are wanted."""

    def __init__(self):
        self.kept, self.answer = b"", None

    def take(self, piece, basic=BASIC, shortest=ENTRIES):
        if self.answer is not None:
            return self.answer
        if shortest < ENTRIES:
            return refused((2, 0, 0))
        count, self.answer = heard(self.kept + piece, basic)
        self.kept = (self.kept + piece)[:count]
        return self.answer

    def finished(self):
        if self.answer is None:
            self.answer = refused((1, len(self.kept), 0))
        return self.answer
