"""Images of cards to test calls with."""
import pathlib
import random

import chip

HERE = pathlib.Path(__file__).resolve().parent


def card(name):
    return (HERE / (name + ".bin")).read_bytes()


def image_of(length=chip.BYTES, data=(), raw=()):
    """An image of zeros, with the codewords of `data` and the bits of `raw` put in by word number."""
    image = bytearray(chip.BYTES + 1)
    for word, bits in [(k, chip.encode(d)) for k, d in data] + list(raw):
        image[2 * word:2 * word + 2] = bits.to_bytes(2, "big")
    return bytes(image[:length])


def scale(s, average):
    """Offset scale and average, the average as 16 bits."""
    return [(16, s * 32), (17, average // 32), (18, average % 32)]


def flipped(image, flips):
    """The image with some bits flipped, each given as word and bit."""
    for word, bit in flips:
        image = chip.stepped(image, (word, chip.words_of(image)[word] ^ 1 << bit))
    return image


def random_card(seed):
    """Random data in every checked word, but an offset scale up to 20 and small exponents of alpha_CP and K_sTo; random bits in the others."""
    draw = random.Random(seed)
    words = [chip.encode(draw.randrange(2048)) if chip.is_checked(k) else draw.randrange(65536) for k in range(chip.WORDS)]
    words[16], words[46], words[52] = chip.encode(draw.randrange(21 * 32)), chip.encode(draw.randrange(128)), chip.encode(draw.randrange(16))
    return b"".join(word.to_bytes(2, "big") for word in words)
