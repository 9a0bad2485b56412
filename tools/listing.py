"""Reads what the station tool prints: the sections of a listing, its numbers, the segments that its commands draw, and the place in the
plan at which a command's letter stands. tools/plot, tools/table and tools/export take it."""
import math
import re
import struct

KINDS = ("line", "quad", "cubic", "arc", "fallback")
TAKES = {"M": 2, "L": 2, "Q": 4, "C": 6, "A": 7, "Z": 0}


class Damaged(Exception):
    """What is read is no listing, is cut, or is the listing of another plan."""


def number(pattern):
    """The float of eight hexadecimal digits. Python's own floats hold every f32 exactly."""
    return struct.unpack(">f", bytes.fromhex(pattern))[0]


def shown(value):
    """The shortest decimal that f32 takes back to the value."""
    for digits in range(1, 10):
        text = f"{value:.{digits}g}"
        try:
            if struct.pack(">f", float(text)) == struct.pack(">f", value):
                return f"{float(text):.10g}"
        except OverflowError:  # rounded up past the largest f32
            pass
    return f"{value:.9g}"


class Listing:
    """The sections of what the station tool prints, and none of them cut."""

    def __init__(self, text):
        self.refused, self.commands, self.segments, self.stations = None, [], [], []
        if not text.endswith("\n"):
            raise Damaged("the listing does not end with a line feed; it is cut, or it is no listing")
        lines = text.split("\n")[:-1]
        if lines[0].startswith("refused "):
            self.refused = lines[0].split(" ")[1:]
            return
        for name in ("commands", "segments", "stations"):
            if not lines or not re.fullmatch(f"{name} [0-9]{{1,5}}", lines[0]):
                raise Damaged(f"the listing has no section of {name} where one is due; it is cut, or it is no listing")
            count = int(lines[0].split(" ")[1])
            if len(lines) <= count:
                raise Damaged(f"the listing is cut: {count} {name} are announced, and {len(lines) - 1} lines follow")
            setattr(self, name, [line.split(" ") for line in lines[1 : count + 1]])
            lines = lines[count + 1 :]
        bits = "[0-9A-F]{8}"
        forms = {
            "commands": "|".join(f"{letter}( {bits}){{{count}}} [0-9]+" for letter, count in TAKES.items()),
            "segments": f"({'|'.join(KINDS)}) {bits} [0-9]+",
            "stations": f"[0-9]+ (-|[0-9]+)( {bits}){{4}}",
        }
        for name, form in forms.items():
            for row in getattr(self, name):
                if not re.fullmatch(form, " ".join(row)):
                    raise Damaged(f"the listing has a line that is none of its {name}: {' '.join(row)!r}")
        if any(row[1] != "-" and int(row[1]) >= len(self.segments) for row in self.stations):
            raise Damaged("the listing has a station on a segment that it does not have; it is of another plan or damaged")
        if any(int(row[2]) >= len(self.commands) for row in self.segments):
            raise Damaged("the listing has a segment of a command that it does not have; it is of another plan or damaged")

    def lengths(self):
        """The running length at each segment's end, and each segment's own: a difference of two f32, which a double holds closely."""
        ends = [number(row[1]) for row in self.segments]
        return ends, [end - start for start, end in zip([0.0, *ends], ends)]

    def coordinates(self):
        """The ends and controls of all commands; a radius is none."""
        return [number(p) for letter, *patterns, _ in self.commands for p in (patterns[5:] if letter == "A" else patterns)]


def drawn(listing):
    """The segments as they are built, each (kind, points, arc), and how many commands have a number that is not finite.

    A command without a current point only sets it. An arc's numbers are its radii, rotation and flags; its points are its ends.
    """
    segments, current, start, left_out = [], None, None, 0
    rows = iter(listing.segments)
    for command, (letter, *patterns, _) in enumerate(listing.commands):
        values = [number(pattern) for pattern in patterns]
        ends = values[5:] if letter == "A" else values
        points = list(zip(ends[0::2], ends[1::2]))
        if not all(map(math.isfinite, ends)):
            # nothing is drawn to or from such a point, or the length would not be finite
            left_out, current, start = left_out + 1, None, None
            continue
        if letter == "M":
            current = start = points[0]
            continue
        if letter == "Z":
            points = [start] if current else []
        if current and points:
            kind, _, maker = next(rows, (None, None, None))
            if kind is None:
                raise Damaged("the listing has fewer segments than its commands draw; it is of another plan or damaged")
            if int(maker) != command:
                raise Damaged(f"the listing has a segment of command {maker} where {command} draws it; it is of another plan or damaged")
            segments.append((kind, [current, *points], values[:5] if kind == "arc" else None))
        if points:
            current, start = points[-1], start or points[-1]
    return segments, left_out


def coarsest(listing):
    """How far apart two f32 are where the plan's coordinates are largest, and whether that is too far: more than a thousandth of the
    unit, or than 1/10,000 of the plan's larger extent, as in a plan that is drawn in degrees."""
    ends = [value for value in listing.coordinates() if math.isfinite(value)]
    step = 2.0 ** (math.frexp(max(map(abs, ends), default=0.0))[1] - 24)
    points = [p for letter, *patterns, _ in listing.commands for p in pairs(patterns[5:] if letter == "A" else patterns)]
    sizes = [max(values) - min(values) for values in zip(*points)] if points else []
    extent = max(sizes, default=0.0)
    return step, extent, step > 0.001 or 0 < extent < 10000 * step


def pairs(patterns):
    """The finite points among the numbers of a command."""
    values = [number(pattern) for pattern in patterns]
    return [point for point in zip(values[0::2], values[1::2]) if all(map(math.isfinite, point))]


def place(plan, offset):
    """The line and column of a byte of the path data, counted from 1 over the whole plan, columns in bytes."""
    at = plan.find(b"\n") + 1 + offset
    return plan.count(b"\n", 0, at) + 1, at - plan.rfind(b"\n", 0, at)
