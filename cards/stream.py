"""Writes and reads streams of cases, as in docs/CASES.md. An f32 is its bits here, never a Python float."""
import collections
import struct

NAMES = (
    "encode", "check", "load", "row", "subpage", "read words", "write", "scrub", "burn", "pieces", "filter", "camera", "frame",
    "infrared", "one pass", "second pass", "filtered infrared", "filtered one pass", "filtered second pass", "temperatures",
    "MLX90640 word", "MLX90640 split", "MLX90640 pixel", "MLX90640 load", "MLX90640 mask", "MLX90640 camera", "MLX90640 frame",
    "MLX90640 infrared", "MLX90640 one pass", "MLX90640 second pass", "MLX90640 filtered infrared", "MLX90640 filtered one pass",
    "MLX90640 filtered second pass", "MLX90640 temperatures")
KINDS = dict(enumerate(NAMES, 1))
ENCODE, CHECK, LOAD, ROW, SUBPAGE, READ_WORDS, WRITE, SCRUB, BURN, PIECES, FILTER, CAMERA, FRAME = range(1, 14)
INFRARED, ONE_PASS, SECOND_PASS, FILTERED_INFRARED, FILTERED_ONE_PASS, FILTERED_SECOND_PASS, TEMPERATURES = range(14, 21)
BIGGER_WORD, BIGGER_SPLIT, BIGGER_PIXEL, BIGGER_LOAD, BIGGER_MASK, BIGGER_CAMERA, BIGGER_FRAME = range(21, 28)
BIGGER_INFRARED, BIGGER_ONE_PASS, BIGGER_SECOND_PASS = range(28, 31)
BIGGER_FILTERED_INFRARED, BIGGER_FILTERED_ONE_PASS, BIGGER_FILTERED_SECOND_PASS, BIGGER_TEMPERATURES = range(31, 35)

# For each sensor the kinds of a load, a camera and a frame, those of the calls on a frame, and the position of the camera in a load's answer
Sensor = collections.namedtuple("Sensor", "load camera frame calls camera_at")
MLX90641 = Sensor(LOAD, CAMERA, FRAME, range(INFRARED, TEMPERATURES + 1), 32)
MLX90640 = Sensor(BIGGER_LOAD, BIGGER_CAMERA, BIGGER_FRAME, range(BIGGER_INFRARED, BIGGER_TEMPERATURES + 1), 24)
SENSORS = MLX90641, MLX90640
HEAD = ">HHII"

# The value of an entry before a call, and in a table of numbers
KEPT = 77
KEPT_REAL = 0x429A0000
NAN = 0x7FC00000
ENTRIES = 200
BIGGER_ENTRIES = 776


# ---- Numbers, the upper byte first

def packed(letter, numbers):
    return struct.pack(">%d%s" % (len(numbers), letter), *numbers)


def u8(*numbers):
    return packed("B", numbers)


def u16(*numbers):
    return packed("H", numbers)


def u32(*numbers):
    return packed("I", numbers)


def u64(*numbers):
    return packed("Q", numbers)


def i16(*numbers):
    return packed("h", numbers)


def i32(*numbers):
    return packed("i", numbers)


# ---- Parts that occur often

def status(refusal):
    return u64(*refusal)


def record(r):
    """A record is a dict: whole numbers, bits, lists of eight, and None if there is no gradient."""
    first = i32(r["k_v_dd"], r["v_dd_25"]) + u32(r["resolution"])
    first += u32(r["k_v_ptat"], r["k_t_ptat"], r["v_ptat_25"], r["alpha_ptat"], r["gain"], r["k_s_ta"])
    first += i32(*r["corners"]) + u32(*r["k_s_to"]) + u32(r["emissivity"], r["alpha_cp"]) + i32(r["offset_cp"])
    gradient = (0, 0) if r["gradient"] is None else (1, r["gradient"])
    whole = first + u32(r["k_v_cp"], r["k_ta_cp"], *gradient, *r["coefficients"])
    assert len(whole) == 160
    return whole


def tables(lists):
    """Five lists: whole numbers in the first two, bits in the others. A list below 200 entries is padded with the value before the call."""
    forms = [(i32, KEPT)] * 2 + [(u32, KEPT_REAL)] * 3
    whole = b"".join(write(*entries, *[kept] * (ENTRIES - len(entries))) for entries, (write, kept) in zip(lists, forms))
    assert len(whole) == 4000
    return whole


def bigger_record(r):
    """The MLX90640's record, also a dict."""
    first = i32(r["k_v_dd"], r["v_dd_25"]) + u32(r["resolution"])
    first += u32(r["k_v_ptat"], r["k_t_ptat"], r["v_ptat_25"], r["alpha_ptat"], r["gain"], r["k_s_ta"])
    first += i32(*r["corners"]) + u32(*r["k_s_to"], *r["coefficients"], *r["alpha_cp"]) + i32(*r["offset_cp"])
    gradient = (0, 0) if r["gradient"] is None else (1, r["gradient"])
    whole = first + u32(r["k_v_cp"], r["k_ta_cp"], *gradient, *r["k_v"], *r["pattern"], r["one"])
    assert len(whole) == 160
    return whole


def bigger_tables(lists):
    """Three lists: whole numbers in the first, bits in the others. A list below 776 entries is padded with the value before the call."""
    forms = (i32, KEPT), (u32, KEPT_REAL), (u32, KEPT_REAL)
    whole = b"".join(write(*entries, *[kept] * (BIGGER_ENTRIES - len(entries))) for entries, (write, kept) in zip(lists, forms))
    assert len(whole) == 9312
    return whole


def loaded(load):
    """The answer of a load, from the result of chip.load."""
    return status(load.status) + u32(load.mended, load.last) + record(load.record)


# ---- Writing

class Stream:
    """Writes cases. A case is not written twice, nor is a camera or a frame that is still in effect. Each sensor has one camera and one frame in effect."""

    def __init__(self):
        self.cases = []
        self.counts = collections.Counter()
        self.names = set()
        self.written = set()
        self.repeated = collections.Counter()
        self.standing = {sensor: (None, None) for sensor in SENSORS}

    def put(self, kind, name, given, answer):
        assert name.isascii() and len(name) <= 256 and len(given) <= 65536 and len(answer) <= 65536
        self.cases.append(struct.pack(HEAD, kind, len(name), len(given), len(answer)) + name.encode() + given + answer)

    def case(self, kind, name, given, answer):
        stands = next((self.standing[sensor] for sensor in SENSORS if kind in sensor.calls), ())
        if (kind, given, *stands) in self.written:
            self.repeated[kind] += 1
            return
        assert (kind, name) not in self.names, (KINDS[kind], name)
        self.written.add((kind, given, *stands))
        self.names.add((kind, name))
        self.counts[kind] += 1
        self.put(kind, name, given, answer)
        for sensor in SENSORS:
            if kind == sensor.load:
                self.standing[sensor] = answer[sensor.camera_at:], None

    def stand(self, sensor, name, camera, frame):
        """The camera and the frame of the calls that follow."""
        if camera != self.standing[sensor][0]:
            self.put(sensor.camera, name, camera, b"")
            self.standing[sensor] = camera, None
        if frame != self.standing[sensor][1]:
            self.put(sensor.frame, name, frame, b"")
            self.standing[sensor] = camera, frame

    def bytes(self):
        return b"".join(self.cases)

    def lines(self):
        """The lines that a program writes for a stream in which every case agrees."""
        kinds = ["%s\t%d\tagree\t%d\n" % (KINDS[kind], count, count) for kind, count in sorted(self.counts.items())]
        return "".join(kinds) + "first disagreement\tnone\n"


# ---- Reading

def cases(stream):
    """Number, kind, name, input and answer of each case."""
    number, at = 0, 0
    while at < len(stream):
        kind, *lengths = struct.unpack_from(HEAD, stream, at)
        at += struct.calcsize(HEAD)
        parts = []
        for length in lengths:
            parts.append(stream[at:at + length])
            assert len(parts[-1]) == length, "the stream ends within a case"
            at += length
        number += 1
        yield number, kind, parts[0].decode("ascii"), parts[1], parts[2]
