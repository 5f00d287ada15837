"""The MLX90640's word splits and pixel entries, from document 02, CR 14, and its own paper: how words are split, and a pixel's entry in a pattern."""
from chip import signed

ROW = 32
PIXELS = 768


def split(word):
    """The upper six bits, signed, and the lower ten."""
    return signed(6, word >> 10), word % 1024


def nibbles(word):
    """The four nibbles of a word, unsigned, the uppermost first."""
    return [word >> shift & 15 for shift in (12, 8, 4, 0)]


def corrections(word):
    """The access pattern corrections three, two and one, from the top: 5, 5 and 6 bits, over 8, 2 and 16. All are exact in any float."""
    return signed(5, word >> 11) / 8, signed(5, word >> 6) / 2, signed(6, word) / 16


def pattern(word):
    """The six-entry pattern -A, B, -C, A, -B, C. A negated zero is -0."""
    three, two, _ = corrections(word)
    b, c = two - three, two + three
    return -three, b, -c, three, -b, c


def interleaved(pixel):
    return 3 * (pixel // ROW % 2) + (0, 1, 0, 2)[pixel % 4]


def chessboard(pixel):
    odd_row, odd_column = pixel // ROW % 2, pixel % ROW % 2
    return {(0, 0): 0, (1, 0): 1, (0, 1): 2, (1, 1): 3}[odd_row, odd_column]
