"""Messages, stores and markers as bytes of docs/FORMATS.md, written and read.

What can't be read is a Fault, whose text is that of `hgfleet show`.
"""
import hashlib
import struct
from typing import NamedTuple

NULL = bytes(20)
PUBLIC, DRAFT, SECRET = range(3)
SERVED, WHOLE = range(2)

# No text, and no metadata of a marker, has more bytes.
MOST_BYTES = 1_048_576

# The lowest bit of a marker's flags.
BUMPED_FIX = 1


class Fault(Exception):
    """Bytes that aren't what they should be: the form, the number and the name of the fault, and its place."""


class StoreFault(Fault):
    """What is wrong with a store, and where in it."""

    def __init__(self, number, cause, place=0):
        super().__init__(f"store: {number} {cause}")
        self.cause, self.place = cause, place


class Changeset(NamedTuple):
    """Its id, its parents in either order, of which the absent ones are null, and its text."""

    node: bytes
    first: bytes
    second: bytes
    text: bytes


class Marker(NamedTuple):
    """That the predecessor was rewritten to the successors, all together. The metadata is a map of bytes."""

    predecessor: bytes
    successors: tuple
    flags: int
    metadata: dict


class Message(NamedTuple):
    """What a message says. A bound is a phase and an id; the store is as it was read."""

    scope: int
    changesets: list
    bounds: list
    store: bytes


# ---- written


def node_of(text, first=NULL, second=NULL):
    """The id of a changeset."""
    return hashlib.sha1(min(first, second) + max(first, second) + text).digest()


def record(text, first=NULL, second=NULL):
    """A changeset, its parents in normal form."""
    parents = sorted((first, second), key=lambda parent: (parent == NULL, parent))
    return node_of(text, first, second) + b"".join(parents) + struct.pack(">I", len(text)) + text


def bound(node, phase=DRAFT):
    """That a changeset and its ancestors have at most this phase."""
    return struct.pack(">I", phase) + node


def marker(old, new, metadata=b"", flags=0):
    """That an id was rewritten to these, all together."""
    return struct.pack(">BIB", len(new), len(metadata), flags) + old + b"".join(new) + metadata


def written(metadata):
    """The one spelling of a map of metadata."""
    return b"\0".join(key + b":" + metadata[key] for key in sorted(metadata))


def store(markers):
    """The store of these markers, each in its form."""
    return b"\0" + b"".join(markers)


def message(records=(), bounds=(), markers=(), scope=SERVED):
    """The message of these, each in its form."""
    told = store(markers)
    return b"".join((
        b"HGFX", struct.pack(">BB", 2, scope),
        struct.pack(">I", len(records)), *records,
        struct.pack(">I", len(bounds)), *bounds,
        struct.pack(">I", len(told)), told,
    ))


# ---- read


class Reader:
    """What is left of some bytes of a form, read from the front."""

    def __init__(self, form, data, begin=0):
        self.form, self.data, self.at = form, data, begin

    def fault(self, what):
        return Fault(f"{self.form}: {what}")

    def take(self, size):
        """The next field, of so many bytes."""
        if len(self.data) - self.at < size:
            raise self.fault(f"1 Truncated at {self.at}")
        self.at += size
        return self.data[self.at - size:self.at]

    def number(self, size=4):
        return int.from_bytes(self.take(size), "big")


def read_message(data):
    """What a message of version 1 or 2 says, or the first fault."""
    reader = Reader("message", data)
    if reader.take(4) != b"HGFX":
        raise reader.fault("2 BadMagic")
    version = reader.number(1)
    if version not in (1, 2):
        raise reader.fault("3 BadVersion")
    scope = reader.number(1) if version == 2 else SERVED
    if scope not in (SERVED, WHOLE):
        raise reader.fault("10 BadScope")
    changesets = [read_record(reader, place) for place in range(reader.number())]
    bounds = [read_bound(reader) for _ in range(reader.number())]
    told = read_told_store(reader)
    if reader.at < len(data):
        raise reader.fault("8 Trailing")
    return Message(scope, changesets, bounds, told)


def read_record(reader, place):
    node, first, second = reader.take(20), reader.take(20), reader.take(20)
    size = reader.number()
    if size > MOST_BYTES:
        raise reader.fault(f"9 TextTooLong in record {place}")
    text = reader.take(size)
    if first == second != NULL:
        raise reader.fault(f"5 BadParents in record {place}")
    if node == NULL or node_of(text, first, second) != node:
        raise reader.fault(f"4 HashMismatch in record {place}")
    return Changeset(node, first, second, text)


def read_bound(reader):
    phase = reader.number()
    if phase > SECRET:
        raise reader.fault("6 BadPhase")
    return phase, reader.take(20)


def read_told_store(reader):
    """The bytes of the store of a message, which has no fault."""
    size = reader.number()
    begin, told = reader.at, reader.take(size)
    try:
        read_store(told)
    except StoreFault as fault:
        raise reader.fault(f"7 BadMarker at {begin + fault.place}: {fault.cause}") from None
    return told


def read_store(data):
    """The markers of a store, or the first fault. No bytes at all are a store too."""
    if not data:
        return []
    if data[0]:
        raise StoreFault(1, f"BadVersion {data[0]}")
    markers, at = [], 1
    while at < len(data):
        found, at = read_marker(data, at)
        markers.append(found)
    return markers


def read_marker(data, at):
    """The marker that begins there, and where it ends."""
    sizes = data[at:at + 6]
    count, size, flags = struct.unpack(">BIB", sizes.ljust(6, b"\0"))
    begin = at + 26 + 20 * count
    if len(sizes) < 6 or begin + size > len(data):
        raise StoreFault(2, f"Bad at {at}: Truncated", at)
    nodes = [data[place:place + 20] for place in range(at + 6, begin, 20)]
    if NULL in nodes[1:]:
        raise StoreFault(2, f"Bad at {at}: NullSuccessor", at)
    metadata = read_metadata(data[begin:begin + size])
    if metadata is None:
        raise StoreFault(2, f"Bad at {at}: BadMetadata", at)
    return Marker(nodes[0], tuple(nodes[1:]), flags, metadata), begin + size


def read_metadata(data):
    """The map that metadata spells, or nothing where it is bad."""
    pieces = [piece for piece in data.split(b"\0") if piece]
    if len(data) > MOST_BYTES or any(b":" not in piece for piece in pieces):
        return None
    return dict(piece.split(b":", 1) for piece in pieces)
