#!/usr/bin/env python3
"""Messages as bytes of docs/FORMATS.md, and the cases of hg_bench: each does something with a message of a size.

    bench/messages.py repository SIZE > FILE     writes the message of a repository of so many changesets, in twenties
"""
import hashlib
import os
import sys

sys.path.append(os.path.join(os.path.dirname(os.path.dirname(os.path.realpath(__file__))), "tools"))
from formats import DRAFT, NULL, PUBLIC, WHOLE, bound, marker, message, node_of, record, store, written  # noqa: E402
from hashing import START, fed, hash_of_id  # noqa: E402

# The bytes of metadata that make a marker with one successor 200 bytes long.
FILLING = b"user:" + b"x" * 149


# ---- what is in the messages


def held(number):
    """The text of a draft, as long as that of a short entry."""
    return b"%058d" % number


def unheld(name):
    """An id that looks like a hash, and that no changeset has."""
    return hashlib.sha1(name.encode()).digest()


def scattered(number):
    """Such an id for each number."""
    return unheld(f"scattered {number}")


def meeting(number):
    """An id that begins as the scattered one does, and whose hash by the known rule is that of all of these: its next
    eight bytes are what the hasher is at after the first, which leaves it at 0, and its last four are theirs."""
    front = scattered(number)[:8]
    return front + fed(START, front).to_bytes(8, "little") + b"\1" * 4


def check_meeting():
    """Fails unless ids that are to meet are all different and have one hash by the known rule."""
    ids = [meeting(number) for number in range(1_000)]
    assert len(set(ids)) == len(ids), "two of the ids that are to meet are one"
    assert len(set(map(hash_of_id, ids))) == 1, "the ids that are to meet have several hashes"


def links(size):
    """The records of a chain of changesets, their ids, and the bound that makes them drafts."""
    records, nodes = [], []
    parent = NULL
    for number in range(size):
        records.append(record(held(number), parent))
        parent = node_of(held(number), parent)
        nodes.append(parent)
    return records, nodes, [bound(parent)]


def chain(size):
    """A chain of changesets."""
    records, _, bounds = links(size)
    return message(records, bounds)


def marked_chain(size):
    """A chain of changesets, each of which is what an id that isn't held was rewritten to."""
    records, nodes, bounds = links(size)
    return message(records, bounds, [marker(scattered(it), [node], FILLING) for it, node in enumerate(nodes)])


def amended_stack(size):
    """A chain of changesets, the bottom of which was rewritten to another root."""
    records, nodes, bounds = links(size)
    new = held(size)
    return message([*records, record(new)], [*bounds, bound(node_of(new))], [marker(nodes[0], [node_of(new)], FILLING)])


def pruned(size):
    """A root, and the prunes of so many changesets that aren't held, each of which stood on the one before."""
    parent, markers = node_of(held(0)), []
    for number in range(size):
        markers.append(marker(scattered(number), [], b"p1:" + parent.hex().encode()))
        parent = scattered(number)
    return message([record(held(0))], [bound(node_of(held(0)))], markers)


def markers_in_a_chain(size, id_of=scattered):
    """Markers alone, each of what the one before made."""
    return message(markers=[marker(id_of(number), [id_of(number + 1)], FILLING) for number in range(size)])


def markers_of_one(size):
    """Markers alone, all of one predecessor."""
    return message(markers=[marker(scattered(size), [scattered(number)], FILLING) for number in range(size)])


def chains_of_markers(size, length=1_000, are_paired=False, id_of=scattered):
    """Markers in chains, each from an id that isn't held to a draft root. Where two chains begin with one id, what they
    end with diverges."""
    texts = [held(chain) for chain in range(size // length)]
    markers = []
    for chain, text in enumerate(texts):
        ids = [id_of(chain * length + step) for step in range(length)] + [node_of(text)]
        if are_paired:
            ids[0] = id_of((chain & ~1) * length)
        markers += [marker(old, [new], FILLING) for old, new in zip(ids, ids[1:])]
    return message([*map(record, texts)], [bound(node_of(text)) for text in texts], markers)


def one_chain_of_markers(size):
    """All markers in one chain, which ends with a draft root."""
    return chains_of_markers(size, size)


def pairs_of_chains(size, id_of=scattered):
    """Markers in chains that begin in pairs."""
    return chains_of_markers(size, are_paired=True, id_of=id_of)


# A repository is made of blocks. Of each changeset of a block but the first, which others of the block it stands on:
# the fourth is what the third was amended to, and the thirteenth begins a branch, which the last merges.
BLOCK = [(place - 1,) for place in range(20)]
BLOCK[3], BLOCK[12], BLOCK[19] = (1,), (5,), (11, 18)
AMENDED = 2

# The metadata that Mercurial gives to the marker of an amend.
AMEND = written({b"date": b"1600000000.0 -7200", b"ef1": b"9", b"operation": b"amend", b"user": b"somebody"})


def described(number):
    """The text of an entry that changes a file, of 150 bytes."""
    front = b"%040x\nSomebody <somebody@example.org>\n%d -7200\nsrc/file\n\n" % (number, 1_600_000_000 + number)
    return front.ljust(150, b".")


def block(begin, below):
    """The records of a block that stands on an id, whose first changeset has this number."""
    records = []
    for place, parents in enumerate(BLOCK):
        nodes = [records[parent][:20] for parent in parents] if place else [below]
        records.append(record(described(begin + place), *nodes))
    return records


def repository(size):
    """A history as of a real one, in blocks: a line with branches and merges, and in each block a changeset that
    was amended, is hidden, and stands beside what it became. All but the last twentieth of the line is public."""
    records, markers, hidden, tips = [], [], [], [NULL]
    for begin in range(0, size - size % len(BLOCK), len(BLOCK)):
        its = block(begin, tips[-1])
        old, new, last = (its[place][:20] for place in (AMENDED, AMENDED + 1, -1))
        records += its
        markers.append(marker(old, [new], AMEND))
        hidden.append(bound(old))
        tips.append(last)
    bounds = [bound(tips[len(tips) * 19 // 20], PUBLIC), *hidden, bound(tips[-1], DRAFT)]
    return message(records, bounds, markers, WHOLE)


SIZES = (10_000, 20_000, 40_000)
MARKER_SIZES = (25_000, 50_000, 100_000)

# Of each row the name, the case of hg_bench, the message of a size, and the sizes.
CASES = {
    "take": ("a chain of so many changesets taken in by an empty replica", "take", chain, SIZES),
    "keep": ("the same by a replica that keeps its sets", "keep", chain, SIZES),
    "join-into-empty": ("an empty replica joins one of this size", "join-into-empty", chain, SIZES),
    "join-into-equal": ("a replica joins an equal one of this size", "join-into-equal", chain, SIZES),
    "below": ("whether a replica is below an equal one of this size", "below", chain, SIZES),
    "roots": ("the one root of a replica of this size, told 1,000 times", "roots", chain, SIZES),
    "tell-stack": ("the instabilities of a stack of this size on an amended changeset", "tell", amended_stack, SIZES),
    "view-stack": ("what is visible and what is served of that stack", "view", amended_stack, SIZES),
    "list": ("a message of so many markers read, as a list", "read", markers_in_a_chain, MARKER_SIZES),
    "add-chain": ("those markers added, in a chain", "take", markers_in_a_chain, MARKER_SIZES),
    "add-meeting": ("markers added in a chain, of ids that meet", "take",
        lambda size: markers_in_a_chain(size, meeting), MARKER_SIZES),
    "add-fan": ("markers added, all of one predecessor", "take", markers_of_one, MARKER_SIZES),
    "write": ("markers written, as a message of the whole", "send-whole", markers_in_a_chain, MARKER_SIZES),
    "sets-of-chains": ("successors sets of all predecessors, in chains of 1,000", "sets",
        chains_of_markers, MARKER_SIZES),
    "sets-of-pairs": ("the same, in chains that begin in pairs", "sets", pairs_of_chains, MARKER_SIZES),
    "sets-of-one-chain": ("the same, in one chain", "sets", one_chain_of_markers, MARKER_SIZES),
    "divergence-of-chains": ("instabilities with markers in chains of 1,000", "tell", chains_of_markers, MARKER_SIZES),
    "divergence-of-pairs": ("the same, in chains that begin in pairs", "tell", pairs_of_chains, MARKER_SIZES),
    "divergence-of-meeting-pairs": ("instabilities with markers in pairs of chains, of ids that meet", "tell",
        lambda size: pairs_of_chains(size, meeting), MARKER_SIZES),
    "divergence-of-one-chain": ("instabilities with markers in one chain", "tell", one_chain_of_markers, MARKER_SIZES),
    "read-offer": ("an offer of so many changesets and as many markers read", "read", marked_chain, SIZES),
    "take-offer": ("that offer taken in by an empty replica", "take", marked_chain, SIZES),
    "keep-offer": ("the same by a replica that keeps its sets", "keep", marked_chain, SIZES),
    "find-offer": ("that offer found, and no more", "find-offer", marked_chain, SIZES),
    "send-offer": ("that offer found and written straight from the replica", "send-offer", marked_chain, SIZES),
    "send-whole": ("the whole found and written straight from the replica", "send-whole", marked_chain, SIZES),
    "find-prunes": ("an offer of one changeset found, below so many pruned in a chain", "find-offer",
        pruned, MARKER_SIZES),
}

# Those in which threads work beside each other at a node, which holds a chain of this size.
SIDE_BY_SIDE = {
    f"reads-beside-writer-{threads}": (
        f"1,000,000 looks of each of {threads} at a node of this size, beside one that commits",
        f"reads-beside-writer-{threads}", chain, SIZES)
    for threads in (1, 2, 4)
}


def main():
    words = sys.argv[1:]
    if len(words) != 2 or words[0] != "repository" or not words[1].isdigit() or int(words[1]) < len(BLOCK):
        sys.exit(f"usage: messages.py repository SIZE > FILE, with a size from {len(BLOCK)} on")
    sys.stdout.buffer.write(repository(int(words[1])))


if __name__ == "__main__":
    main()
