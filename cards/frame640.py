"""What differs in the MLX90640's frames, from its paper; all else is frame.py's. A camera is a record and three tables, in the form of card640.py. A frame
is frame.py's dict, except for:
pattern                      CHESS or INTERLEAVE
lengths                      the lengths passed of offsets, alpha, K_Ta, pixel bytes, mask and destination
pixels, mask, destination    1,552 bytes, 776 bytes, 776 bits"""
from bigger import PIXELS, ROW, chessboard, interleaved
from card640 import RANGES
from frame import Differs, Taken, number

INTERLEAVE, CHESS = 0, 1


def taken(camera, frame):
    record, (offsets, alpha, k_ta) = camera
    subpage, interleave = min(frame["subpage"], 1), frame["pattern"] == INTERLEAVE
    k_v = [record["k_v"][chessboard(pixel)] for pixel in range(PIXELS)]
    access = [number(record["pattern"][interleaved(pixel)]) if interleave else 0.0 for pixel in range(PIXELS)]
    access_cp = number(record["one"]) if interleave and subpage == 1 else 0.0
    return Taken(offsets, k_v, k_ta, alpha, access, record["offset_cp"][subpage], record["alpha_cp"][subpage], access_cp)


TAKES = {"infrared": (0, 2), "temperatures": (1,), "one pass": (0, 1, 2), "second pass": (0, 1, 2)}
MLX90640 = Differs(PIXELS, RANGES, TAKES, taken)


# ---- The mask's writer

def of_subpage(subpage, pattern, pixel):
    row, column = divmod(pixel, ROW)
    return (row if pattern == INTERLEAVE else row + column) % 2 == min(subpage, 1)


def mask(subpage, pattern):
    return bytes(of_subpage(subpage, pattern, pixel) for pixel in range(PIXELS))
