#!/usr/bin/env python3
"""Messages and stores that make much of few bytes, as bytes of docs/FORMATS.md.

    bench/hostile.py CASE SIZE > FILE            writes the message of a case
    bench/hostile.py store CASE SIZE > FILE      writes its markers alone, as a store
    bench/hostile.py                             names the cases, and how long their messages are

The first cases are of ids with 4,096 successors sets: such an id was split into 12 parts, each of which was rewritten
in two ways. The others are of ids that meet, which have one hash by the rule that everybody knows (hashing.py), and of
as many that look like hashes. An id of a marker is whatever its sender writes. That of a changeset is its SHA-1: to
have k given bits of its hash takes about 2^k tries.

`hgfleet show` reads these bytes, and hg_bench takes messages in. No script takes any.
"""
import struct
import sys
from functools import partial

import messages
from cases import MEETING_SIZES, WIDE_SIZES
from messages import bound, held, meeting, node_of, record, scattered, unheld

PARTS = 12
SUCCESSORS = 255


# ---- the format


def store(markers):
    """The store of these markers."""
    return messages.store(told(markers))


def told(markers):
    """These markers, each in its form."""
    return [messages.marker(old, new) for old, new in markers]


def message(texts, markers):
    """The message of drafts with these texts and no parents, and of these markers."""
    return messages.message([*map(record, texts)], [bound(node_of(text)) for text in texts], told(markers))


# ---- what is in the messages


def wide(members):
    """The texts and markers of an id with 4,096 successors sets, each of 12 times so many members."""
    texts, markers = [], []
    for part in range(PARTS):
        for way in range(2):
            first = (2 * part + way) * members
            new = [held(number) for number in range(first, first + members)]
            texts += new
            markers.append((unheld(f"part {part}"), [node_of(text) for text in new]))
    markers.append((unheld("wide"), [unheld(f"part {part}") for part in range(PARTS)]))
    return texts, markers


def with_splits(size, into, more):
    """An id with 4,096 sets, and so many ids, each split into an id and a draft."""
    texts, markers = wide(1)
    for number in range(size):
        markers.append((unheld(f"split {number}"), [into(number), node_of(more(number))]))
    texts += dict.fromkeys(more(number) for number in range(size) if more(number) not in texts)
    return texts, markers


def own(number):
    """The text of what is one split's own."""
    return held(1_000_000 + number)


def split(size):
    """Each is split into the one with 4,096 sets and one of its own."""
    return with_splits(size, lambda number: unheld("wide"), own)


def split_into_the_same(size):
    """Each into it and the same one more."""
    return with_splits(size, lambda number: unheld("wide"), lambda number: own(0))


def split_in_pairs(size):
    """Each into it and one more that it shares with another one."""
    return with_splits(size, lambda number: unheld("wide"), lambda number: own(number // 2))


def tangled(size):
    """Each into it and one that is in half of its sets."""
    return with_splits(size, lambda number: unheld("wide"), lambda number: held(0))


def chain(size):
    """Each into the one before, the first into the one with 4,096 sets, and one of its own."""
    return with_splits(size, lambda number: unheld(f"split {number - 1}") if number else unheld("wide"), own)


def between(size):
    """Each into it and one of its own, which another id was rewritten to, and to something else, too. The markers of
    these others stand behind those of the first part and before those of the rest."""
    texts, markers = split(size)
    met = []
    for number in range(size):
        old = unheld(f"met {number}")
        met += ((old, [node_of(own(number))]), (old, [unheld(f"other {number}")]))
    return texts, markers[:2] + met + markers[2:]


def predecessors(size, id_of):
    """The shortest markers, which tell of nothing but their predecessors: so many prunes."""
    return [], [(id_of(number), []) for number in range(size)]


def successors(size, id_of):
    """So many splits, each into as many ids as one can have."""
    firsts = range(0, size * SUCCESSORS, SUCCESSORS)
    return [], [(unheld(f"split {first}"), list(map(id_of, range(first, first + SUCCESSORS)))) for first in firsts]


CASES = {
    "wide": (wide, 250),
    "split": (split, 3_200),
    "split-into-the-same": (split_into_the_same, 3_200),
    "split-in-pairs": (split_in_pairs, 3_200),
    "tangled": (tangled, 3_200),
    "chain": (chain, 200),
    "between": (between, 3_200),
    "meeting-predecessors": (lambda size: predecessors(size, meeting), 40_000),
    "scattered-predecessors": (lambda size: predecessors(size, scattered), 40_000),
    "meeting-successors": (lambda size: successors(size, meeting), 200),
    "scattered-successors": (lambda size: successors(size, scattered), 200),
}

# Those of ids that meet, and what stands beside each when bytes are shown.
BESIDE = {f"meeting-{role}": f"scattered-{role}" for role in ("predecessors", "successors")}

# Those that hg_bench takes in, with what they are and their sizes.
TAKEN = {
    "wide": ("4,096 successors sets, of 12 times so many members each", (60, 120, 240)),
    "split": ("so many ids, each split into one with 4,096 successors sets and one of its own", WIDE_SIZES),
    "between": ("the same, where each one more is met between the parts of the one with 4,096", WIDE_SIZES),
    "chain": ("the same in a chain, each split into the one before and one of its own", (50, 100, 200)),
    "tangled": ("the same, where the one more is in half of the 4,096 sets", MEETING_SIZES),
    "meeting-predecessors": ("so many prunes of ids that meet", (10_000, 20_000, 40_000)),
    "scattered-predecessors": ("so many prunes of ids that look like hashes", (10_000, 20_000, 40_000)),
    "meeting-successors": ("so many splits into 255 ids that meet", (50, 100, 200)),
    "scattered-successors": ("so many splits into 255 ids that look like hashes", (50, 100, 200)),
}


def bytes_of(case, size):
    """The message of a case."""
    return message(*CASES[case][0](size))


# Of each row of hg_bench the name, its case, the message of a size, and the sizes: what it costs to ask which ids have
# several sets, and what it costs a replica that keeps its sets of instabilities to take all of it in.
MEASURED = {
    f"{done}-{case}": (f"{name}{how}", done, partial(bytes_of, case), sizes)
    for done, how in (("sets", ""), ("keep", ", taken in"))
    for case, (name, sizes) in TAKEN.items()
    if done == "keep" or "-" not in case
}


def main():
    messages.check_meeting()
    words = sys.argv[1:]
    is_store = words[:1] == ["store"]
    asked = words[is_store:]
    if not words:
        for name, (made, size) in CASES.items():
            print(f"{name} {size:,}: {len(message(*made(size))):,} bytes")
    elif len(asked) == 2 and asked[0] in CASES and asked[1].isdigit():
        texts, markers = CASES[asked[0]][0](int(asked[1]))
        sys.stdout.buffer.write(store(markers) if is_store else message(texts, markers))
    else:
        sys.exit(f"usage: hostile.py [[store] {'|'.join(CASES)} SIZE]")


if __name__ == "__main__":
    main()
