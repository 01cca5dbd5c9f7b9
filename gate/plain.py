#!/usr/bin/env python3
"""What `hgfleet run` has to print, told a second time.

    gate/plain.py < SCRIPT

This is written from docs/DEFINITIONS.md, docs/FORMATS.md, docs/SCRIPTS.md and the help text of scripts alone. It
shares no step with the program: it keeps nothing but changesets, phases, markers and pins, and tells each definition
from scratch, by sets and by steps that are repeated until nothing changes. So it is slow, and easy to compare with the
definitions. `gate/soak` compares the program with it.

Want of memory, and streams that can't be read or written, are left out, and so are the bytes of messages: a message
is kept as what it says.
"""
import hashlib
import re
import sys
from dataclasses import dataclass, field
from itertools import product
from typing import NamedTuple

PUBLIC, DRAFT, SECRET = 0, 1, 2
PHASES = {"public": PUBLIC, "draft": DRAFT, "secret": SECRET}
PHASE_WORDS = {number: word for word, number in PHASES.items()}
NULL = bytes(20)
WORDS = ("obsolete", "suspended", "extinct", "orphan", "phase-divergent", "content-divergent", "hidden")

LONGEST_SCRIPT = 1_048_576
LONGEST_LINE = 4_096
MOST_WAYS = 4_096
OVERFULL = "overfull"


class Refusal(Exception):
    """What a replica refuses: a word, a number and a name. It changes nothing, and the script goes on."""

    def __init__(self, word, number, name):
        super().__init__(f"{word} {number} {name}")


class LineFault(Exception):
    """A line that can't be read, or whose names can't be used. It ends the script."""


# ---- changesets, markers, parts


class Changeset(NamedTuple):
    """Its parents, in normal form and without the absent ones, and its text."""

    parents: tuple
    text: bytes

    @property
    def node(self):
        lesser, greater = sorted(self.parents + (NULL,) * (2 - len(self.parents)))
        return hashlib.sha1(lesser + greater + self.text).digest()


class Marker(NamedTuple):
    """Two markers are equal where all of this is. Flags are always 0 where a script makes it."""

    predecessor: bytes
    successors: tuple
    metadata: frozenset
    flags: int = 0

    @property
    def recorded_parents(self):
        """The parents of the predecessor that the metadata records."""
        known = dict(self.metadata)
        return {bytes.fromhex(known[key]) for key in ("p1", "p2") if key in known}


class Part(NamedTuple):
    """What a replica takes in. Bounds are pairs of a node and a phase."""

    changesets: list
    bounds: list
    markers: list


def entry(label, parents, extras=()):
    """The changeset of the user `fleet` at 0 0 with the label as description."""
    written = "\0".join(f"{key}:{value}" for key, value in extras)
    date = "0 0 " + written if written else "0 0"
    return Changeset(tuple(sorted(parents)), "\n".join(["0" * 40, "fleet", date, "", label]).encode())


def marker(operation, predecessor, successors, parents=None):
    """The marker of an operation; that of a prune also records parents."""
    metadata = {"date": "0 0", "operation": operation, "user": "fleet"}
    if parents is not None:
        keys = ("p1", "p2")
        metadata |= {key: parent.hex() for key, parent in zip(keys, parents or (NULL,))}
    return Marker(predecessor, tuple(successors), frozenset(metadata.items()))


def closure(start, step):
    """The start and all that the step leads to from it, in any number of steps."""
    found = set(start)
    fresh = found
    while fresh:
        fresh = {further for one in fresh for further in step(one)} - found
        found = found | fresh
    return found


# ---- a replica, and what is so of it


@dataclass
class Replica:
    """Changesets and markers in the order in which they came, phases, and the pins of the node."""

    changesets: dict = field(default_factory=dict)
    phases: dict = field(default_factory=dict)
    markers: list = field(default_factory=list)
    pins: set = field(default_factory=set)

    def says_the_same(self, other):
        """Whether each state is below the other. Orders and pins are no part of a state."""
        ours, theirs = (self.changesets, self.phases), (other.changesets, other.phases)
        return ours == theirs and set(self.markers) == set(other.markers)

    def ancestors(self, nodes):
        """Those of the nodes that are held, with all their ancestors."""
        held = (node for node in nodes if node in self.changesets)
        return closure(held, lambda node: self.changesets[node].parents)

    def descendants(self, nodes):
        """Those of the nodes that are held, with all their descendants."""
        children = {}
        for node, changeset in self.changesets.items():
            for parent in changeset.parents:
                children.setdefault(parent, []).append(node)
        held = (node for node in nodes if node in self.changesets)
        return closure(held, lambda node: children.get(node, ()))

    def heads(self, nodes):
        """Those of the nodes that have no other of them as a descendant, ascending."""
        below = set()
        for node in nodes:
            below |= self.ancestors(self.changesets[node].parents)
        return sorted(set(nodes) - below)

    # what is obsolete, and what follows from it

    def obsolete(self):
        rewritten = {marker.predecessor for marker in self.markers}
        return {node for node, phase in self.phases.items() if phase != PUBLIC and node in rewritten}

    def may_be_unstable(self):
        """What is neither public nor obsolete."""
        return {node for node, phase in self.phases.items() if phase != PUBLIC} - self.obsolete()

    def orphan(self):
        obsolete = self.obsolete()
        return {node for node in self.may_be_unstable() if self.ancestors({node}) & obsolete}

    def suspended(self):
        return self.obsolete() & self.ancestors(self.orphan())

    def extinct(self):
        return self.obsolete() - self.suspended()

    def preceding(self, node, without_fixes=False):
        """What precedes a node: one or more steps from a successor of a marker to its predecessor. Where asked so, no
        step is over a marker with bumpedfix, the lowest bit of flags."""
        predecessors = {}
        for marker in self.markers:
            if without_fixes and marker.flags % 2:
                continue
            for successor in marker.successors:
                predecessors.setdefault(successor, set()).add(marker.predecessor)
        step = lambda one: predecessors.get(one, ())
        return closure(step(node), step)

    def following(self, node):
        """What one or more markers lead to from a node."""
        successors = {}
        for marker in self.markers:
            successors.setdefault(marker.predecessor, set()).update(marker.successors)
        step = lambda one: successors.get(one, ())
        return closure(step(node), step)

    def phase_divergent(self):
        public = {node for node, phase in self.phases.items() if phase == PUBLIC}
        return {node for node in self.may_be_unstable() if self.preceding(node, without_fixes=True) & public}

    def content_divergent(self):
        several = {node for node, sets in self.successors_sets().items() if sets == OVERFULL or len(sets) > 1}
        return {node for node in self.may_be_unstable() if self.preceding(node) & several}

    # successors sets

    def successors_sets(self):
        """The successors sets of all that a marker names, each a set of nodes, or that it is overfull."""
        named = {node for marker in self.markers for node in (marker.predecessor, *marker.successors)}
        rewritings = {node: [] for node in named}
        for marker in self.markers:
            rewritings[marker.predecessor].append(marker.successors)
        sets = {}
        for node in named:
            if node in self.following(node):
                sets[node] = set()
            elif not rewritings[node]:
                sets[node] = {frozenset({node})} if node in self.changesets else set()
        while len(sets) < len(named):
            for node in named - sets.keys():
                if all(successor in sets for successors in rewritings[node] for successor in successors):
                    sets[node] = sets_of_rewritten(rewritings[node], sets)
        return sets

    # what is visible, and given to others

    def visible(self):
        """What isn't obsolete or is pinned, with all its ancestors."""
        counts_as_obsolete = self.obsolete() - self.pins
        return self.ancestors(self.changesets.keys() - counts_as_obsolete)

    def hidden(self):
        return self.changesets.keys() - self.visible()

    def not_secret(self):
        return {node for node, phase in self.phases.items() if phase != SECRET}

    def served(self):
        return self.visible() & self.not_secret()

    def relevant(self, nodes):
        """The markers that touch one of the nodes, or the predecessor of a relevant one."""
        wanted, found = set(nodes), set()
        while True:
            fresh = {marker for marker in self.markers if touched_by(marker) & wanted} - found
            if not fresh:
                return [marker for marker in self.markers if marker in found]
            found |= fresh
            wanted |= {marker.predecessor for marker in fresh}

    def offer(self, common, whole):
        """The message for whoever has the common nodes and their ancestors, as the part that it says."""
        if any(node not in self.changesets for node in common):
            raise Refusal("offer", 1, "UnknownCommon")
        named = self.not_secret() if whole else self.served()
        left_out = self.ancestors(common)
        records = [changeset for node, changeset in self.changesets.items() if node in named - left_out]
        bounds = []
        for phase in (PUBLIC, DRAFT):
            bounds += [(node, phase) for node in self.heads({n for n in named if self.phases[n] == phase})]
        bounds += [(changeset.node, DRAFT) for changeset in records]
        return Part(records, bounds, list(self.markers) if whole else self.relevant(named))

    # what changes it

    def absorb(self, part):
        """Goes to the least state that covers the part, or tells the first fault and changes nothing."""
        after = Replica(dict(self.changesets), dict(self.phases))
        for changeset in part.changesets:
            if any(parent not in after.changesets for parent in changeset.parents):
                raise Refusal("replica", 1, "UnknownParent")
            if after.changesets.setdefault(changeset.node, changeset) != changeset:
                raise Refusal("replica", 2, "Collision")
            after.phases.setdefault(changeset.node, SECRET)
        for node, _ in part.bounds:
            if node not in after.changesets:
                raise Refusal("replica", *((4, "NullBound") if node == NULL else (3, "UnknownBound")))
        for head, phase in part.bounds:
            for node in after.ancestors({head}):
                after.phases[node] = min(after.phases[node], phase)
        self.changesets, self.phases = after.changesets, after.phases
        self.markers = list(dict.fromkeys([*self.markers, *part.markers]))

    def pin(self, node):
        if node not in self.changesets:
            raise Refusal("view", 1, "Unknown")
        self.pins.add(node)

    def unpin(self, node):
        if node not in self.pins:
            raise Refusal("view", 2, "NotPinned")
        self.pins.remove(node)


def touched_by(marker):
    """The nodes that a marker touches."""
    return set(marker.successors) or {marker.predecessor} | marker.recorded_parents


def sets_of_rewritten(rewritings, sets):
    """The successors sets of a node that isn't led back to, by the lists of successors of its markers."""
    if any(sets[successor] == OVERFULL for successors in rewritings for successor in successors):
        return OVERFULL
    ways = 0
    for successors in rewritings:
        ways_of_marker = 1
        for successor in successors:
            ways_of_marker *= len(sets[successor]) or 1
        ways += ways_of_marker
    if ways > MOST_WAYS:
        return OVERFULL
    unions = set()
    for successors in rewritings:
        choices = [sets[successor] for successor in successors if sets[successor]]
        unions |= {frozenset().union(*chosen) for chosen in product(*choices)}
    unions.discard(frozenset())
    return {one for one in unions if not any(one < other for other in unions)}


# ---- operations


@dataclass
class Operation:
    """What a line asks for: the labels of the new changesets, what is rewritten, new parents, and a phase."""

    kind: str
    new: list = field(default_factory=list)
    rewritten: list = field(default_factory=list)
    parents: list = field(default_factory=list)
    lowered: list = field(default_factory=list)
    phase: int = DRAFT

    def refuse(self, replica):
        """Tells the first row of the table of refusals that applies, of those that new changesets have no say in."""
        if any(node not in replica.changesets for node in self.rewritten + self.parents + self.lowered):
            raise Refusal("rewrite", 1, "Unknown")
        if set(self.parents) & replica.hidden():
            raise Refusal("rewrite", 2, "Hidden")
        if any(replica.phases[node] == PUBLIC for node in self.rewritten):
            raise Refusal("rewrite", 3, "Public")
        if set(self.rewritten) & replica.obsolete():
            raise Refusal("rewrite", 4, "AlreadyObsolete")
        if not self.is_linear(replica):
            raise Refusal("rewrite", 5, "NotLinear")
        is_short = self.kind == "fold" and len(self.rewritten) < 2
        if is_short or (self.kind == "split" and not 2 <= len(self.new) <= 255):
            raise Refusal("rewrite", 6, "Count")
        if any(replica.phases[node] < self.phase for node in self.lowered):
            raise Refusal("rewrite", 7, "Raise")

    def is_linear(self, replica):
        """Whether each node of a fold after the first has the one before as its sole parent, and no new parent of a
        relocation is the node or a descendant of it."""
        if self.kind == "fold":
            pairs = zip(self.rewritten, self.rewritten[1:])
            return all(replica.changesets[node].parents == (before,) for before, node in pairs)
        return self.kind != "relocate" or not set(self.parents) & replica.descendants(self.rewritten)

    def changesets(self, replica):
        """The new changesets, in order."""
        if self.kind == "commit":
            return [entry(self.new[0], self.parents)]
        if self.kind == "relocate":
            return [entry(self.new[0], self.parents, [("rebase_source", self.rewritten[0].hex())])]
        if self.kind not in ("amend", "split", "fold"):
            return []
        made, parents = [], replica.changesets[self.rewritten[0]].parents
        extras = [("amend_source", self.rewritten[0].hex())] if self.kind == "amend" else []
        for label in self.new:
            made.append(entry(label, parents, extras))
            parents = (made[-1].node,)
        return made

    def part(self, replica):
        """What the operation adds, or its first refusal."""
        self.refuse(replica)
        made = self.changesets(replica)
        nodes = [changeset.node for changeset in made]
        # There is no changeset of a parent that is named twice, and no marker of what is its own successor.
        if len(set(self.parents)) < len(self.parents) or set(self.rewritten) & set(nodes):
            raise Refusal("rewrite", 8, "Fault")
        if len(set(nodes)) < len(nodes) or set(nodes) & replica.changesets.keys():
            raise Refusal("rewrite", 9, "Exists")
        phases = [replica.phases[node] for node in self.rewritten[-1:] + self.parents]
        if self.kind == "commit":
            phases.append(self.phase)
        bounds = [(nodes[-1], max(phases))] if nodes else [(node, self.phase) for node in self.lowered]
        recorded = replica.changesets[self.rewritten[0]].parents if self.kind == "prune" else None
        return Part(made, bounds, [marker(self.kind, old, nodes, recorded) for old in self.rewritten])


# ---- scripts

# The words that follow a command. NODE and MSG are new names of a replica and a message, AT and MESSAGE bound ones; NEW
# is the label of a new changeset, OLD one that is bound; ASKED and PHASE are phases. A question mark follows what may
# be left out, a star what may come any number of times, or not at all.
COMMANDS = {
    "node": "NODE",
    "commit": "AT NEW ASKED OLD? OLD?",
    "amend": "AT OLD NEW",
    "split": "AT OLD NEW*",
    "fold": "AT NEW OLD*",
    "prune": "AT OLD",
    "relocate": "AT OLD NEW OLD? OLD?",
    "phase": "AT OLD PHASE",
    "pin": "AT OLD",
    "unpin": "AT OLD",
    "offer": "AT MSG OLD*",
    "whole": "AT MSG OLD*",
    "take": "AT MESSAGE",
    "pull": "AT AT",
    "share": "AT AT",
    "report": "AT",
    "agree": "AT AT",
}
ALLOWED_PHASES = {"ASKED": ("draft", "secret"), "PHASE": tuple(PHASES)}


def kinds_of_words(form, count):
    """What each of so many words stands for, or a fault where the form has fewer or more."""
    kinds = form.split()
    needed = [kind for kind in kinds if kind[-1] not in "?*"]
    further = [kind[:-1] for kind in kinds if kind[-1] == "?"]
    if kinds[-1][-1] == "*":
        further = [kinds[-1][:-1]] * (count - len(needed))
    if not len(needed) <= count <= len(needed) + len(further):
        raise LineFault("wrong number of words")
    return (needed + further)[:count]


@dataclass
class Fleet:
    """Replicas, ids of labels and messages, by their names, and the lines that were printed."""

    replicas: dict = field(default_factory=dict)
    labels: dict = field(default_factory=dict)
    messages: dict = field(default_factory=dict)
    printed: list = field(default_factory=list)

    def do_line(self, number, line):
        """Does a line of a script, which has no LF. A fault changes nothing."""
        if len(line) > LONGEST_LINE:
            raise LineFault("line is too long")
        words = [word for word in line.split(" ") if word]
        if line.startswith("#") or not words:
            return
        if words[0] not in COMMANDS:
            raise LineFault("unknown command")
        kinds = kinds_of_words(COMMANDS[words[0]], len(words) - 1)
        words_by_kind = self.read_words(kinds, words[1:])
        try:
            getattr(self, "do_" + words[0])(**words_by_kind)
        except Refusal as refusal:
            self.printed.append(f"{number}: {refusal}")

    def read_words(self, kinds, words):
        """The words of each kind; old labels as the ids that they name, replicas as what they are."""
        pairs = list(zip(kinds, words))
        for kind, word in pairs:
            if kind not in ALLOWED_PHASES and not re.fullmatch("[A-Za-z0-9_.-]{1,32}", word):
                raise LineFault("bad name")
        for kind, word in pairs:
            if kind in ALLOWED_PHASES and word not in ALLOWED_PHASES[kind]:
                raise LineFault("bad phase")
        bound = {"AT": self.replicas, "OLD": self.labels, "MESSAGE": self.messages}
        for kind, word in pairs:
            if word not in bound.get(kind, (word,)):
                raise LineFault("unknown name")
        for kind, word in pairs:
            if (kind == "NODE" and word in self.replicas) or (kind == "MSG" and word in self.messages):
                raise LineFault("name is taken")
        read = {}
        for kind, word in pairs:
            read.setdefault(kind, []).append(bound["OLD"][word] if kind == "OLD" else word)
        return read

    # each command; what it is given are lists of words by their kind

    def do_node(self, NODE):
        self.replicas[NODE[0]] = Replica()

    def do_commit(self, AT, NEW, ASKED, OLD=()):
        self.operate(AT, Operation("commit", new=NEW, parents=list(OLD), phase=PHASES[ASKED[0]]))

    def do_amend(self, AT, OLD, NEW):
        self.operate(AT, Operation("amend", new=NEW, rewritten=OLD))

    def do_split(self, AT, OLD, NEW=()):
        self.operate(AT, Operation("split", new=list(NEW), rewritten=OLD))

    def do_fold(self, AT, NEW, OLD=()):
        self.operate(AT, Operation("fold", new=NEW, rewritten=list(OLD)))

    def do_prune(self, AT, OLD):
        self.operate(AT, Operation("prune", rewritten=OLD))

    def do_relocate(self, AT, OLD, NEW):
        self.operate(AT, Operation("relocate", new=NEW, rewritten=OLD[:1], parents=OLD[1:]))

    def do_phase(self, AT, OLD, PHASE):
        self.operate(AT, Operation("phase", lowered=OLD, phase=PHASES[PHASE[0]]))

    def operate(self, AT, operation):
        """Decides an operation, binds the labels of its new changesets and does it."""
        replica = self.replicas[AT[0]]
        part = operation.part(replica)
        fresh = {}
        for label, changeset in zip(operation.new, part.changesets):
            if {**self.labels, **fresh}.get(label, changeset.node) != changeset.node:
                raise LineFault("name is taken")
            fresh[label] = changeset.node
        replica.absorb(part)
        self.labels |= fresh

    def do_pin(self, AT, OLD):
        self.replicas[AT[0]].pin(OLD[0])

    def do_unpin(self, AT, OLD):
        self.replicas[AT[0]].unpin(OLD[0])

    def do_offer(self, AT, MSG, OLD=()):
        self.messages[MSG[0]] = self.replicas[AT[0]].offer(OLD, whole=False)

    def do_whole(self, AT, MSG, OLD=()):
        self.messages[MSG[0]] = self.replicas[AT[0]].offer(OLD, whole=True)

    def do_take(self, AT, MESSAGE):
        self.replicas[AT[0]].absorb(self.messages[MESSAGE[0]])

    def do_pull(self, AT):
        """The common nodes are those that the one doesn't keep secret and the other serves."""
        taker, maker = (self.replicas[name] for name in AT)
        taker.absorb(maker.offer(taker.not_secret() & maker.served(), whole=False))

    def do_share(self, AT):
        taker, maker = (self.replicas[name] for name in AT)
        taker.absorb(maker.offer((), whole=True))

    def do_report(self, AT):
        replica = self.replicas[AT[0]]
        holding = {word: getattr(replica, word.replace("-", "_"))() for word in WORDS}
        self.printed.append(f"report {AT[0]}")
        for label, node in sorted(self.labels.items()):
            if node in replica.changesets:
                words = [word for word in WORDS if node in holding[word]]
                self.printed.append(" ".join([label, PHASE_WORDS[replica.phases[node]], *words]))
        self.printed.append(f"{len(replica.changesets)} changesets {len(replica.markers)} markers")

    def do_agree(self, AT):
        one, other = AT
        is_same = self.replicas[one].says_the_same(self.replicas[other])
        self.printed.append(f"agree {one} {other}: {'yes' if is_same else 'no'}")


def lines_of(script):
    """The lines of a script, each a byte a character, without LF and one CR right before it."""
    *ended, last = script.decode("latin-1").split("\n")
    lines = [line.removesuffix("\r") for line in ended]
    return lines + [last] if last else lines


def expected(script):
    """What a script itself says that its lines print, which its first line says of none."""
    said = [line[3:] for line in lines_of(script)[1:] if line == "#>" or line.startswith("#> ")]
    return "".join(line + "\n" for line in said)


class Outcome(NamedTuple):
    output: str
    errors: str
    status: int


def run(script):
    """What becomes of a script, which is bytes."""
    if len(script) > LONGEST_SCRIPT:
        return Outcome("", "script is too long\n", 1)
    fleet, errors = Fleet(), ""
    for number, line in enumerate(lines_of(script), 1):
        try:
            fleet.do_line(number, line)
        except LineFault as fault:
            errors = f"line {number}: {fault}\n"
            break
    return Outcome("".join(line + "\n" for line in fleet.printed), errors, 1 if errors else 0)


def main():
    outcome = run(sys.stdin.buffer.read())
    sys.stdout.write(outcome.output)
    sys.stdout.flush()
    sys.stderr.write(outcome.errors)
    return outcome.status


if __name__ == "__main__":
    sys.exit(main())
