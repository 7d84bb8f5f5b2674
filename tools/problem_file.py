"""Problem files: the bytes that the program `tile` reads, written and read back.

A file is a row of fields: a tag of one byte, a length of two bytes, then a body of that length, all little-endian.
Tag 1 is the header with sizes and settings, 2 the targets, 3 the design's values; a sparse design (CSC) also has 4,
where each column starts among the values, and 5, the row of each value.
"""
import math
import struct
from dataclasses import dataclass, field

LONGEST_FILE = 49_152
MOST_SAMPLES = 256
MOST_FEATURES = 32
MOST_STORED = 4_096
LONGEST_BODY = 65_535

DENSE, SPARSE = 0, 1
LAYOUTS = ["dense", "sparse"]
L1, L1PLUSL2, MCP = 0, 1, 2
PENALTIES = ["l1", "l1plusl2", "mcp"]

HEADER_TAG, TARGETS_TAG, VALUES_TAG, STARTS_TAG, ROWS_TAG = 1, 2, 3, 4, 5
# What the fields hold, with the format of one element.
BODIES = {
    TARGETS_TAG: ("targets", "d"),
    VALUES_TAG: ("values", "d"),
    STARTS_TAG: ("starts", "I"),
    ROWS_TAG: ("rows", "I"),
}

# n, p, layout, penalty, extrapolate, K, start, iterations, epochs, tolerance, alpha, second number.
HEADER = struct.Struct("<IIBBBBIIIddd")


class Broken(Exception):
    """The file breaks a rule of the layout: `offset` is where refusal 9 is given."""

    def __init__(self, offset, reason):
        super().__init__(reason)
        self.offset = offset
        self.reason = reason


@dataclass
class Problem:
    samples: int
    features: int
    layout: int = DENSE
    penalty: int = L1
    extrapolate: int = 0
    depth: int = 0
    start: int = 10
    iterations: int = 50
    epochs: int = 1000
    tolerance: float = 1e-8
    alpha: float = 1.0
    second: float = 0.0
    targets: list = field(default_factory=list)
    values: list = field(default_factory=list)
    starts: list = field(default_factory=list)
    rows: list = field(default_factory=list)

    def header(self):
        return HEADER.pack(
            self.samples,
            self.features,
            self.layout,
            self.penalty,
            self.extrapolate,
            self.depth,
            self.start,
            self.iterations,
            self.epochs,
            self.tolerance,
            self.alpha,
            self.second,
        )

    def tags(self):
        return BODIES if self.layout == SPARSE else [TARGETS_TAG, VALUES_TAG]


def fields_of(tag, body, element):
    """The body as fields: as few as there can be, since no body is longer than its length can say."""
    most = LONGEST_BODY // element * element
    pieces = [body[begin : begin + most] for begin in range(0, len(body), most)] or [b""]
    return b"".join(struct.pack("<BH", tag, len(piece)) + piece for piece in pieces)


def write(problem):
    file = fields_of(HEADER_TAG, problem.header(), 1)
    for tag in problem.tags():
        name, element = BODIES[tag]
        elements = getattr(problem, name)
        body = struct.pack(f"<{len(elements)}{element}", *elements)
        file += fields_of(tag, body, struct.calcsize(element))
    return file


def read_header(tag, body):
    """The problem without its arrays; everything that is wrong with a header is found at offset 0."""
    if tag != HEADER_TAG:
        raise Broken(0, f"the first field has tag {tag}, not {HEADER_TAG}")
    if len(body) != HEADER.size:
        raise Broken(0, f"the header has {len(body)} bytes, not {HEADER.size}")
    problem = Problem(*HEADER.unpack(body))
    for number, most, name in (
        (problem.samples, MOST_SAMPLES, "samples"),
        (problem.features, MOST_FEATURES, "features"),
    ):
        if number > most:
            raise Broken(0, f"{number} {name}; the program takes {most} at most")
    for code, most, name in (
        (problem.layout, SPARSE, "layout"),
        (problem.penalty, MCP, "penalty"),
        (problem.extrapolate, 1, "extrapolate"),
    ):
        if code > most:
            raise Broken(0, f"the code of {name} is {code}, not 0 to {most}")
    return problem


def take(problem, offset, tag, body):
    """Adds a field's elements to the problem."""
    if tag not in BODIES:
        known = "a second header" if tag == HEADER_TAG else f"tag {tag} is unknown"
        raise Broken(offset, known)
    name, element = BODIES[tag]
    if tag not in problem.tags():
        raise Broken(offset, f"a dense file has no {name} (tag {tag})")
    size = struct.calcsize(element)
    if len(body) % size:
        raise Broken(offset, f"{len(body)} bytes of {name} are no whole number of elements of {size} bytes")
    getattr(problem, name).extend(struct.unpack(f"<{len(body) // size}{element}", body))
    if len(problem.values) > MOST_STORED:
        raise Broken(offset, f"more than {MOST_STORED} values")


def read(file):
    """The problem, and the fields as (offset, tag, length of the body)."""
    if len(file) > LONGEST_FILE:
        raise Broken(LONGEST_FILE, f"the file has {len(file)} bytes; the program reads {LONGEST_FILE} at most")
    if not file:
        raise Broken(0, "the file is empty")
    problem, fields, offset = None, [], 0
    while offset < len(file):
        if offset + 3 > len(file):
            raise Broken(offset, "the file ends before the field's length")
        tag, length = struct.unpack_from("<BH", file, offset)
        body = file[offset + 3 : offset + 3 + length]
        if len(body) < length:
            raise Broken(offset, f"the field has {length} bytes, but the file only {len(body)} more")
        if problem is None:
            problem = read_header(tag, body)
        elif tag < fields[-1][1]:
            raise Broken(offset, f"tag {tag} comes after tag {fields[-1][1]}")
        else:
            take(problem, offset, tag, body)
        fields.append((offset, tag, length))
        offset += 3 + length
    return problem, fields


def wrong_length(problem):
    n, p, stored = problem.samples, problem.features, len(problem.values)
    if n < 1 or p < 1:
        return f"{n} samples and {p} features; there must be at least one of each"
    if len(problem.targets) != n:
        return f"{len(problem.targets)} targets for {n} samples"
    if problem.layout == DENSE:
        return f"{stored} values for {n} times {p}" if stored != n * p else None
    if len(problem.starts) != p + 1:
        return f"{len(problem.starts)} starts for {p} features; there must be one more than features"
    return f"{len(problem.rows)} rows for {stored} values" if len(problem.rows) != stored else None


def not_negative(x):
    return math.isfinite(x) and x >= 0


def told(value):
    return "NaN" if value != value else str(value)


def wrong_setting(problem):
    """The first setting outside its range, by its index, and why. The order is that of the tests, not the header's."""
    second = problem.second
    tests = [
        ("iterations", problem.iterations, problem.iterations <= 1_000, "0 to 1000"),
        ("epochs", problem.epochs, problem.epochs <= 100_000, "0 to 100000"),
        ("start", problem.start, 1 <= problem.start <= 8_192, "1 to 8192"),
        ("depth", problem.depth, not problem.extrapolate or 1 <= problem.depth <= 10, "1 to 10"),
        ("tolerance", problem.tolerance, not_negative(problem.tolerance), "a number of at least 0"),
        ("alpha", problem.alpha, not_negative(problem.alpha), "a number of at least 0"),
    ]
    if problem.penalty == L1PLUSL2:
        tests.append(("ratio", second, 0 <= second <= 1, "0 to 1"))
    if problem.penalty == MCP:
        tests.append(("gamma", second, math.isfinite(second) and second > 0, "a number above 0"))
    for index, (name, value, fine, allowed) in enumerate(tests):
        if not fine:
            return index, f"setting {index}, {name}, is {told(value)}, not {allowed}"
    return None


def bad_start(problem):
    """The first start that can't be, and why; a dense design has none."""
    if problem.layout == DENSE:
        return None
    stored, before = len(problem.values), 0
    for index, start in enumerate(problem.starts):
        if index == 0 and start != 0:
            return index, f"the first start is {start}, not 0"
        if start < before:
            return index, f"start {index} is {start}, below the one before it"
        if start > stored:
            return index, f"start {index} is {start}, but there are {stored} values"
        before = start
    if before != stored:
        return problem.features, f"the last start is {before}, but there are {stored} values"
    return None


def bad_row(problem):
    """The first row index that can't be, and why; the starts are right."""
    heads = set(problem.starts)
    for position, row in enumerate(problem.rows):
        if row >= problem.samples:
            return position, f"row {row} of value {position}, but there are {problem.samples} samples"
        if position not in heads and row <= problem.rows[position - 1]:
            return position, f"row {row} of value {position} is not above the one before it in its column"
    return None


def bad_number(problem):
    """The first number that is not finite, and why; values are counted behind the targets."""
    for name, numbers, offset in (("target", problem.targets, 0), ("value", problem.values, problem.samples)):
        for position, x in enumerate(numbers):
            if not math.isfinite(x):
                return offset + position, f"{name} {position} is {x}"
    return None


def refusal(problem):
    """What the program refuses before it runs: number, place and reason; None where it runs."""
    reason = wrong_length(problem)
    if reason:
        return 1, 0, reason
    for number, found in ((2, wrong_setting), (4, bad_start), (5, bad_row), (6, bad_number)):
        place = found(problem)
        if place:
            return number, *place
    return None
