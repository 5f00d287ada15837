"""Test cases of the chip word: encode and check."""
import itertools

import chip
from stream import CHECK, ENCODE, status, u8, u16


def encode(out, data):
    answer = status((0, 0, 0)) + u16(chip.encode(data)) if data <= 2047 else status((9, data, 0)) + u16(0)
    out.case(ENCODE, "data %d" % data, u16(data), answer)


def check(out, name, word):
    data = chip.check(word)
    if data is None:
        answer = status((3, 0, word)) + u16(0) + u8(0, 0)
    else:
        near = [] if chip.is_codeword(word) else chip.flipped(word)
        answer = status((0, 0, 0)) + u16(data) + u8(len(near), *(near or [0]))
    out.case(CHECK, name, u16(word), answer)


def cases(out):
    for data in [0, 3, 5, 7, *(1 << bit for bit in range(16)), 1900, 2046, 2047, 2049, 4095, 32767, 65535]:
        encode(out, data)

    # document 01's own: 0x9800 is one flipped bit from the codeword of 1, 0x0003 two from that of 0, 0x0007 three from it, and decodes to 7
    for word in (0x0000, 0x8000, 0x9800, 0x9801, 0x0003, 0x8001, 0x0007, 0x3003, 0xFC00, 0xFFFF, 0x7FFF):
        check(out, "word 0x%04X" % word, word)
    for data, most in ((0, 2), (1900, 3), (2047, 2)):
        for flips in range(most + 1):
            for bits in itertools.combinations(range(16), flips):
                word = chip.encode(data)
                for bit in bits:
                    word ^= 1 << bit
                check(out, "codeword of %d, %s" % (data, "flipped: " + ", ".join(map(str, bits)) if bits else "as it is"), word)
