"""Test cases of the burn: the next step, and a call that does it; and loads of the image after it."""
import chip
import load_cases
from images import card, image_of
from list_cases import spare
from stream import BURN, status, u8, u16, u32


def call(out, name, present, wanted):
    """Writes the case of one call. Returns the present image after it."""
    refusal, step, reached, after = chip.burn_call(present, wanted)
    next_step = status(refusal) + u32(step[0]) + u16(step[1])
    out.case(BURN, name, u16(len(present), len(wanted)) + spare(present) + spare(wanted), next_step * 2 + u8(reached) + spare(after))
    return after


def calls(out, name, present, wanted, times):
    """Writes the cases of this many calls, and of a load after each: a half-burnt card may load."""
    for k in range(1, times + 1):
        present = call(out, "%s, call %d" % (name, k), present, wanted)
        load_cases.load(out, "after burning: %s, call %d" % (name, k), present)


def words(*raw):
    return image_of(1665, raw=raw)


A, B = chip.encode(5), chip.encode(1900)


def cases(out):
    calls(out, "nothing to do", words((36, A)), words((36, A)), 1)
    calls(out, "from zero", words(), words((36, A)), 2)
    calls(out, "to zero", words((36, A)), words(), 2)
    calls(out, "to another word", words((36, A)), words((36, B)), 3)
    calls(out, "low byte differs", words((36, 0x0100)), words((36, 0x0101)), 3)
    calls(out, "high byte differs", words((36, 0x0001)), words((36, 0x0101)), 3)
    calls(out, "words 16, 17, 100 and 831", words((831, A), (16, A), (100, B)), words((831, B), (17, A), (100, A)), 7)
    calls(out, "from a damaged word", words((100, 3)), words((100, A)), 3)
    calls(out, "to a damaged word", words((100, A)), words((100, 3)), 3)
    for word in (0, 15, 16, 19, 20, 21):
        calls(out, "word %d differs" % word, words(), words((word, A)), 1)
    calls(out, "unchecked words 19 and 20 differ, and 16", words((20, A)), words((19, A), (16, A)), 1)
    calls(out, "a byte past the card differs", words(), words()[:1664] + b"\x09", 1)
    for present, wanted in ((1663, 1665), (1663, 0), (1664, 1663), (1664, 1664)):
        call(out, "%d bytes to %d bytes" % (present, wanted), image_of(present), image_of(wanted, raw=[(0, A), (16, A)]))
    for present, wanted in (("older", "sound"), ("half", "sound"), ("worn", "sound")):
        call(out, "cards/%s.bin to cards/%s.bin" % (present, wanted), card(present), card(wanted))
    call(out, "1,680 bytes, all words of which differ, checked or not", b"\x11" * 1680, b"\x22" * 1680)
    every = image_of(raw=[(k, B) for k in chip.CHECKED])
    call(out, "1,680 bytes, all checked words of which differ", image_of() + b"\x11" * 16, every + b"\x22" * 16)
