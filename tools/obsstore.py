"""The obsolescence markers of a repository, as Mercurial keeps them: the file `obsstore`, in format 0 or 1.

Markers are read as Mercurial reads them, and written in format 0 as Mercurial writes them there.
"""
import struct
from typing import NamedTuple

import formats
from formats import NULL, Fault, Reader

# The flag of a marker whose ids have 32 bytes.
SHA256 = 2

# What stands for no record of parents in place of their number.
NO_PARENTS = 3

# Keys that format 0 takes for other fields of a marker.
RESERVED = (b"date", b"p0", b"p1", b"p2")

FIXED_1 = struct.Struct(">dhHBBB")


class Stored(NamedTuple):
    """A marker. The date is in seconds with an offset in seconds; parents are those of the predecessor, or None."""

    predecessor: bytes
    successors: tuple
    flags: int
    metadata: dict
    seconds: float
    offset: int
    parents: tuple

    def touched(self):
        """The ids of which one has to be asked for where this marker goes with it."""
        return self.successors or (self.predecessor, *(self.parents or ()))


# ---- read


def read(data):
    """The markers of the file."""
    if not data:
        return []
    if data[0] not in (0, 1):
        raise Fault(f"the obsstore is of version {data[0]}, and not 0 or 1")
    if data[0] == 0:
        return [stored(marker) for marker in formats.read_store(data)]
    reader, markers = Reader("obsstore", data, begin=1), []
    while reader.at < len(data):
        markers.append(read_1(reader))
    return markers


def stored(marker):
    """A marker of format 0, whose date and parents stand in its metadata."""
    metadata = dict(marker.metadata)
    fields = {key: metadata.pop(key) for key in RESERVED if key in metadata}
    return Stored(*marker[:3], metadata, *date_of(fields), parents_of(fields))


def date_of(fields):
    """The seconds and the offset, 0 where the text isn't that of a date."""
    try:
        seconds, offset = fields.get(b"date", b"0 0").split(b" ")
        return float(seconds), int(offset)
    except ValueError:
        return 0.0, 0


def parents_of(fields):
    """The recorded parents, None where none are recorded or one isn't an id."""
    keys = (b"p1", b"p2") if b"p2" in fields else (b"p1",) if b"p1" in fields else ()
    if not keys and b"p0" not in fields:
        return None
    try:
        parents = tuple(bytes.fromhex(fields[key].decode("ascii")) for key in keys)
    except (KeyError, ValueError):
        return None
    return parents if all(len(parent) == len(NULL) for parent in parents) else None


def read_1(reader):
    """The next marker of format 1."""
    end = reader.at + reader.number()
    seconds, minutes, flags, count, parents, pairs = FIXED_1.unpack(reader.take(FIXED_1.size))
    width = 32 if flags & SHA256 else 20
    predecessor, *successors = (reader.take(width) for _ in range(1 + count))
    recorded = None if parents == NO_PARENTS else tuple(reader.take(width) for _ in range(parents))
    sizes = [(reader.number(1), reader.number(1)) for _ in range(pairs)]
    metadata = {reader.take(key): reader.take(value) for key, value in sizes}
    if reader.at != end:
        raise reader.fault(f"a marker ends at {reader.at}, and not at {end}")
    return Stored(predecessor, tuple(successors), flags, metadata, seconds, minutes * 60, recorded)


# ---- which go with changesets


def relevant(markers, nodes):
    """Those that go with these changesets: they lead there, or prune them or a child of them."""
    touching = {}
    for place, marker in enumerate(markers):
        for node in marker.touched():
            touching.setdefault(node, []).append(place)
    found, wanted, work = set(), set(nodes), list(nodes)
    while work:
        for place in touching.get(work.pop(), ()):
            found.add(place)
            predecessor = markers[place].predecessor
            if predecessor not in wanted:
                wanted.add(predecessor)
                work.append(predecessor)
    return [markers[place] for place in sorted(found)]


# ---- written in format 0


def obstacle(marker):
    """Why format 0 has no such marker, or nothing where it has."""
    if marker.flags & SHA256:
        return "ids of SHA-256"
    if marker.flags > 255:
        return "flags over one byte"
    if any(b":" in key or b"\0" in key + value or key in RESERVED for key, value in marker.metadata.items()):
        return "metadata that format 0 can't spell"
    if NULL in marker.successors:
        return "the null id as a successor"
    if len(spelled(marker)) > formats.MOST_BYTES:
        return "metadata over 1,048,576 bytes"
    return None


def spelled(marker):
    """The metadata of a marker in format 0."""
    metadata = {**marker.metadata, b"date": b"%r %d" % (marker.seconds, marker.offset)}
    if marker.parents == ():
        metadata[b"p0"] = b""
    for place, parent in enumerate(marker.parents or (), 1):
        metadata[b"p%d" % place] = parent.hex().encode()
    return formats.written(metadata)


def in_format_0(marker):
    """The bytes of a marker to which there is no obstacle."""
    return formats.marker(marker.predecessor, marker.successors, spelled(marker), marker.flags)
