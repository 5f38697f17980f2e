"""What a compiled zone file contains (TZif, RFC 9636, section 3), and the limits of a release.

Python's standard library only.
"""

import struct
from collections import namedtuple

MOST_ZONE_BYTES = 65_536
MOST_TRANSITIONS = 4_096

HEADER_BYTES = 44
VERSIONS = (b"2", b"3", b"4")
COUNTS = struct.Struct(">6I")

# The six counts of a header, in order: indicators of UT and of standard time, leap seconds,
# transitions, types of local time, bytes of designations.
Counts = namedtuple("Counts", "ut standard leaps transitions types designations")

# A zone file in parts:
#   before_counts   the bytes up to the counts of the second header, the first block among them
#   counts          the counts of the second header
#   times, numbers  the moments of the transitions, and the number of the type that each begins
#   after_numbers   the bytes from the types to the end of the second block
#   footer          the TZ string
#   types           of each type the seconds east of UTC, a flag of daylight saving time, the name
#   is_slim         whether the second block has transitions and the first has none
ZoneFile = namedtuple(
    "ZoneFile", "before_counts counts times numbers after_numbers footer types is_slim"
)


class Refused(Exception):
    """What the server would refuse, in one line that names the file or the value."""


def read_bytes(path):
    try:
        return path.read_bytes()
    except OSError as error:
        raise Refused(f"{path}: {error.strerror}") from error


def second_header(data, path):
    """The place of a file's second header, whose block has times of 8 bytes."""
    if data[:4] != b"TZif" or len(data) < HEADER_BYTES:
        raise Refused(f"{path}: no TZif file")
    if data[4:5] not in VERSIONS:
        raise Refused(f"{path}: a TZif file of a version other than 2, 3 or 4")
    counts = Counts(*COUNTS.unpack_from(data, 20))
    place = (
        HEADER_BYTES + 5 * counts.transitions + 6 * counts.types + counts.designations
        + 8 * counts.leaps + counts.standard + counts.ut
    )
    if len(data) < place + HEADER_BYTES or data[place : place + 4] != b"TZif":
        raise Refused(f"{path}: a TZif file without a second block")
    return place


def check_limits(data, counts, path):
    if len(data) > MOST_ZONE_BYTES:
        raise Refused(f"{path}: {len(data)} bytes, more than {MOST_ZONE_BYTES}")
    if counts.transitions > MOST_TRANSITIONS:
        raise Refused(f"{path}: {counts.transitions} transitions, more than {MOST_TRANSITIONS}")
    if counts.leaps > 0:
        raise Refused(f"{path}: a zone file with leap seconds")


def types_in(block, counts, path):
    """The types that a block begins with, the designations after them."""
    designations = block[6 * counts.types :][: counts.designations]
    types = []
    for number in range(counts.types):
        offset, flag, place = struct.unpack_from(">iBB", block, 6 * number)
        end = designations.find(b"\0", place)
        if end < 0:
            raise Refused(f"{path}: type {number} has a name that does not end")
        types.append((offset, flag, designations[place:end]))
    return types


def read_zone_file(data, path):
    """The parts of a file within the limits of a release and without leap seconds."""
    header = second_header(data, path)
    counts = Counts(*COUNTS.unpack_from(data, header + 20))
    check_limits(data, counts, path)
    begin = header + HEADER_BYTES
    numbers_at = begin + 8 * counts.transitions
    types_at = numbers_at + counts.transitions
    end = types_at + 6 * counts.types + counts.designations + counts.standard + counts.ut
    footer = data[end:]
    if len(footer) < 2 or footer[:1] != b"\n" or footer.find(b"\n", 1) != len(footer) - 1:
        raise Refused(f"{path}: no TZ string between line feeds ends the TZif file")
    times = struct.unpack_from(f">{counts.transitions}q", data, begin)
    numbers = data[numbers_at:types_at]
    if any(one >= other for one, other in zip(times, times[1:])):
        raise Refused(f"{path}: a transition that is not after the one before it")
    if not counts.types or any(number >= counts.types for number in numbers):
        raise Refused(f"{path}: a transition to a type that the TZif file does not have")
    block = data[types_at:end]
    types = types_in(block, counts, path)
    is_slim = bool(times) and Counts(*COUNTS.unpack_from(data, 20)).transitions == 0
    before = data[: header + 20]
    return ZoneFile(before, counts, times, numbers, block, footer[1:-1], types, is_slim)


def with_transitions(zone, times, numbers):
    """The bytes of a file with other transitions in its second block, and all else as it was."""
    counts = COUNTS.pack(*zone.counts._replace(transitions=len(times)))
    encoded = struct.pack(f">{len(times)}q", *times) + bytes(numbers)
    return zone.before_counts + counts + encoded + zone.after_numbers + b"\n" + zone.footer + b"\n"
