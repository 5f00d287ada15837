"""Test cases of reading and writing a card's words as lists, and of the scrub."""
import chip
from images import card, flipped, image_of
from stream import KEPT, READ_WORDS, SCRUB, WRITE, status, u16, u32


def filled(entries, room):
    """A list of 77s after its first entries were written."""
    return u16(*entries, *[KEPT] * (room - len(entries)))


def spare(image):
    """An image padded with zeros to 1,680 bytes."""
    return image + bytes(1680 - len(image))


# ---- Reading

def read_words(out, name, image, lengths=(814, 18)):
    refusal, data, others = chip.read_words(image, *lengths)
    out.case(READ_WORDS, name, u16(*lengths) + image, status(refusal) + filled(data, 820) + filled(others, 24))


def reads(out):
    for name in ("sound", "mended", "damaged", "worn"):
        read_words(out, "cards/%s.bin" % name, card(name))
    read_words(out, "cards/long.bin", card("long"), (820, 24))
    for lengths in ((813, 18), (814, 17), (815, 19), (0, 18), (814, 0)):
        read_words(out, "lists of %d and %d entries" % lengths, card("older"), lengths)
    for length in (0, 1663, 1665):
        read_words(out, "%d bytes" % length, (card("sound") + b"\xFF")[:length])
    read_words(out, "1,663 bytes, short lists, damage", card("damaged")[:1663], (813, 17))
    read_words(out, "short lists, damage", card("damaged"), (814, 17))
    read_words(out, "unchecked words have any bits, word 16 has two flips", image_of(raw=[(0, 3), (15, 0xFFFF), (19, 0x8001), (20, 3), (16, 5)]))
    read_words(out, "word 831 has two flips", flipped(card("sound"), [(831, 0), (831, 15)]))
    read_words(out, "scale 63, as a load would refuse", image_of(data=[(16, 2047)]))


# ---- Writing

def write(out, name, data, others, size=1664):
    """Past the length that is passed, the lists hold data that would be refused."""
    refusal, image = chip.write(data, others, size)
    lists = u16(*data, *[0xFFFF] * (820 - len(data))) + u16(*others, *[0xAAAA] * (24 - len(others)))
    out.case(WRITE, name, u16(len(data), len(others), size) + lists, status(refusal) + image + bytes([KEPT]) * (1680 - len(image)))


def with_data(data, changes):
    data = list(data)
    for index, d in changes:
        data[index] = d
    return data


def writes(out):
    for name in ("sound", "mended", "blank"):
        write(out, "the words of cards/%s.bin" % name, *chip.read_words(card(name), 814, 18)[1:])
    _, data, others = chip.read_words(card("large"), 814, 18)
    every = list(range(814)), [0xFFFF - 0x0111 * k for k in range(18)]
    write(out, "each word another", *every)
    write(out, "data 2047 and unchecked words 0xFFFF", [2047] * 814, [0xFFFF] * 18, 1680)
    for size in (0, 1663, 1665):
        write(out, "into %d bytes" % size, data, others, size)
    for length in (0, 813, 815):
        write(out, "a list of %d data" % length, (data + [5])[:length], others)
    for length in (0, 17, 19):
        write(out, "a list of %d unchecked words" % length, data, (others + [5])[:length])
    write(out, "lists of 815 and 17 entries, 1,663 bytes, data 2048", with_data(data, [(0, 2048)]) + [5], others[:17], 1663)
    write(out, "a list of 19 entries, 1,663 bytes, data 2048", with_data(data, [(0, 2048)]), others + [5], 1663)
    write(out, "1,663 bytes, data 2048", with_data(data, [(0, 2048)]), others, 1663)
    for index in (0, 400, 813):
        write(out, "data 2048 at index %d" % index, with_data(data, [(index, 2048)]), others)
    write(out, "data 65535 at index 812, 2048 at 813", with_data(data, [(812, 65535), (813, 2048)]), others)


# ---- The scrub

def scrub(out, name, image, lengths=(814, 814)):
    refusal, after, changed, damaged = chip.scrub(image, min(lengths))
    answer = status(refusal) + u32(len(changed), len(damaged)) + spare(after) + filled(changed, 840) + filled(damaged, 840)
    out.case(SCRUB, name, u16(*lengths) + image, answer)
    return after


def scrubs(out):
    for name in ("sound", "mended", "worn"):
        after = scrub(out, "cards/%s.bin" % name, card(name))
        scrub(out, "cards/%s.bin again" % name, after)
    everywhere = flipped(card("sound"), [(k, k % 16) for k in range(832)])
    scrub(out, "all words have one flip, checked or not", everywhere)
    scrub(out, "all words have two flips, checked or not", b"\x00\x03" * 832, (840, 840))
    for length in (0, 1663):
        scrub(out, "%d bytes" % length, card("mended")[:length])
    scrub(out, "1,665 bytes", card("mended") + b"\x03")
    scrub(out, "1,680 bytes", card("worn")[:1664] + bytes([0, 3] * 8), (815, 814))
    for lengths in ((813, 814), (814, 813), (840, 0)):
        scrub(out, "lists of %d and %d entries" % lengths, card("worn"), lengths)
    scrub(out, "1,663 bytes, lists of 813 entries", card("worn")[:1663], (813, 813))


def cases(out):
    for some in (reads, writes, scrubs):
        some(out)
