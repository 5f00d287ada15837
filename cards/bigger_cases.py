"""Test cases of the MLX90640's word splits and pixel entries."""
import struct

import bigger
from chip import signed
from stream import BIGGER_PIXEL, BIGGER_SPLIT, BIGGER_WORD, i16, status, u8, u16, u32, u64


def split(word):
    six, ten = bigger.split(word)
    return i16(six) + u16(ten)


def floats(numbers):
    return struct.pack(">%df" % len(numbers), *numbers)


def word(out, w):
    nibbles = bigger.nibbles(w)
    answer = split(w) + u8(*nibbles) + i16(*(signed(4, n) for n in nibbles)) + floats(bigger.corrections(w)) + floats(bigger.pattern(w))
    out.case(BIGGER_WORD, "word 0x%04X" % w, u16(w), answer)


def pixel(out, p):
    entries = [(status((0, 0, 0)), at(p)) if p < bigger.PIXELS else (status((14, p, 0)), 0) for at in (bigger.interleaved, bigger.chessboard)]
    out.case(BIGGER_PIXEL, "pixel %d" % p, u64(p), b"".join(refusal + u32(entry) for refusal, entry in entries))


def cases(out):
    # every bit, every field at its ends, zeros to negate, and corrections that add up to zero
    words = [1 << bit for bit in range(16)] + [0xFFFF ^ 1 << bit for bit in range(16)]
    words += [three << 11 | two << 6 for three, two in ((4, 1), (4, 31), (28, 1), (28, 31))]
    words += [0x0000, 0xFFFF, 0x7FFF, 0x8000, 0x0841, 0x5952, 0xFBB5, 0x2363, 0xE446, 0x1234]
    words += [0xFEDC, 0x7BDF, 0x8420, 0x7800, 0x07C0, 0x003F, 0x03FF, 0xFC00, 0x8888, 0x7777]
    for w in dict.fromkeys(words):
        word(out, w)
    for first in range(0, 65536, 2048):
        answer = b"".join(split(w) for w in range(first, first + 2048))
        out.case(BIGGER_SPLIT, "words 0x%04X to 0x%04X" % (first, first + 2047), u16(first, 2048), answer)
    for p in [*range(769), 800, 1024, 65536, 2**32, 2**63, 2**64 - 1]:
        pixel(out, p)
