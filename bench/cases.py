"""The scripts that are measured: each case gives the lines of a script of a size, and how many lines it prints."""
import random

from hashing import group_of, groups_of, hash_of_label

NAME_BYTES = "ABCDEFGHIJKLMNOPQRSTUVWXYZabcdefghijklmnopqrstuvwxyz0123456789_.-"
SCRIPT_BYTES = 1_048_576
REFUSALS = 1_000


def label(number):
    """A label of three characters, one for each number."""
    base = len(NAME_BYTES)
    return NAME_BYTES[number // base // base] + NAME_BYTES[number // base % base] + NAME_BYTES[number % base]


def short_label(number):
    """A label of as few characters as it takes, one for each number."""
    base = len(NAME_BYTES)
    return (short_label(number // base - 1) if number >= base else "") + NAME_BYTES[number % base]


def meeting_labels(size):
    """So many labels of three characters that meet by the known rule (hashing.py): those with the first groups of a
    table of so many. There are more of them than these groups hold, so most are looked up past what stands there."""
    groups = groups_of(size)
    every = map(label, range(len(NAME_BYTES) ** 3))
    return sorted(every, key=lambda text: group_of(hash_of_label(text.encode()), groups))[:size]


# ---- operations


def chain(size):
    """One node and a chain of commits, each on the one before."""
    yield "node A"
    yield f"commit A {label(0)} draft"
    for number in range(1, size):
        yield f"commit A {label(number)} draft {label(number - 1)}"


def roots(size):
    """One node and commits without parents."""
    yield "node A"
    for number in range(size):
        yield f"commit A {label(number)} draft"


def roots_named_again(labels):
    """One node and a commit for each of the labels, each of which is named once more then."""
    yield "node A"
    yield from (f"commit A {new} draft" for new in labels)
    yield from (f"phase A {held} draft" for held in labels)


def secret_roots(size):
    """One node and secret commits without parents."""
    yield "node A"
    for number in range(size):
        yield f"commit A {label(number)} secret"


def merges(size):
    """One node and merges, each of the two changesets before it."""
    yield "node A"
    yield f"commit A {label(0)} draft"
    yield f"commit A {label(1)} draft"
    for number in range(2, size):
        yield f"commit A {label(number)} draft {label(number - 2)} {label(number - 1)}"


def amends(size):
    """One node and one commit, amended again and again: each amend is of the one before."""
    yield "node A"
    yield f"commit A {label(0)} draft"
    for number in range(1, size + 1):
        yield f"amend A {label(number - 1)} {label(number)}"


def amends_of_a_root(size):
    """One node and a root that is amended again and again, so that it has as many draft roots, and a report."""
    yield "node A"
    yield f"commit A {short_label(0)} draft"
    for number in range(1, size):
        yield f"amend A {short_label(number - 1)} {short_label(number)}"
    yield "report A"


def amends_below_a_stack(size):
    """One node and a stack of commits, whose bottom is amended again and again."""
    yield from chain(size)
    yield f"amend A {label(0)} {label(size)}"
    for number in range(size + 1, 2 * size):
        yield f"amend A {label(number - 1)} {label(number)}"


def splits(size):
    """One node and commits without parents, each split into two."""
    yield from roots(size)
    for number in range(size):
        yield f"split A {label(number)} {label(size + 2 * number)} {label(size + 2 * number + 1)}"


def wide_splits(size):
    """One node and commits without parents, each split into 255, which is the most."""
    yield "node A"
    for number in range(0, 256 * size, 256):
        yield f"commit A {label(number)} draft"
        yield f"split A {label(number)} " + " ".join(label(number + place) for place in range(1, 256))


def splits_into_too_many(size):
    """One node and splits into as many new labels as a line can hold, each refused."""
    yield "node A"
    yield f"commit A {label(0)} draft"
    new = " ".join(first + second for first in NAME_BYTES for second in NAME_BYTES)[:4_080]
    for _ in range(size):
        yield f"split A {label(0)} {new}"


def folds(size):
    """One node and pairs of commits, each pair folded into one."""
    yield "node A"
    for number in range(0, size, 2):
        yield f"commit A {label(number)} draft"
        yield f"commit A {label(number + 1)} draft {label(number)}"
        yield f"fold A {label(size + number)} {label(number)} {label(number + 1)}"


def prunes(size):
    """One node and a chain of commits, pruned from the tip on."""
    yield from chain(size)
    for number in reversed(range(size)):
        yield f"prune A {label(number)}"


def relocations(size):
    """One node and commits without parents, each relocated onto the newest changeset."""
    yield from roots(size)
    for number in range(size - 1):
        yield f"relocate A {label(number)} {label(size + number)} {label(size + number - 1)}"


def evolved_stack(size):
    """One node and a stack whose bottom is amended; each changeset is relocated onto the successor of its parent."""
    yield from chain(size)
    yield f"amend A {label(0)} {label(size)}"
    for number in range(1, size):
        yield f"relocate A {label(number)} {label(size + number)} {label(size + number - 1)}"


def published(size):
    """One node and a chain of commits, made public one by one from the bottom."""
    yield from chain(size)
    for number in range(size):
        yield f"phase A {label(number)} public"


def alternating_published(size):
    """One node and commits without parents, each with a secret child, made public one by one."""
    yield "node A"
    for number in range(0, size, 2):
        yield f"commit A {label(number)} draft"
        yield f"commit A {label(number + 1)} secret {label(number)}"
    for number in range(size):
        yield f"phase A {label(number)} public"


def roots_published(size):
    """One node and commits without parents, made public one by one in an order that looks like chance."""
    yield from roots(size)
    numbers = list(range(size))
    random.Random(1).shuffle(numbers)
    for number in numbers:
        yield f"phase A {label(number)} public"


def commits_on_an_obsolete_parent(size):
    """One node and commits on a parent that was amended, but is visible for what stands on it."""
    yield "node A"
    yield f"commit A {label(0)} draft"
    yield f"commit A {label(1)} draft {label(0)}"
    yield f"amend A {label(0)} {label(2)}"
    for number in range(3, size + 3):
        yield f"commit A {label(number)} draft {label(0)}"


def amends_above_a_fork(size):
    """A root that is amended at two nodes, and amends of what the one made of it, where both are known."""
    yield from ("node A", "node B", "commit A f draft", "pull B A")
    yield from ("amend B f g", f"amend A f {label(0)}", "pull A B")
    for number in range(size):
        yield f"amend A {label(number)} {label(number + 1)}"


def prunes_of_children(size, numbers):
    """An amended changeset with so many children, which are pruned in this order."""
    yield from ("node A", "commit A h draft")
    yield from (f"commit A {label(number)} draft h" for number in range(size))
    yield "amend A h i"
    yield from (f"prune A {label(number)}" for number in numbers)


# ---- pins


def pins_of_a_hidden_stack(size, number):
    """A stack that is pruned from its tip on, one changeset of which is pinned and unpinned, ten times."""
    yield from prunes(size)
    for _ in range(10):
        yield f"pin A {label(number)}"
        yield f"unpin A {label(number)}"


def pinned_roots(size):
    """One node and commits without parents, all of which are pinned and then unpinned, one by one."""
    yield from roots(size)
    yield from (f"pin A {label(number)}" for number in range(size))
    yield from (f"unpin A {label(number)}" for number in range(size))


# ---- reports


def chain_with_report(size):
    yield from chain(size)
    yield "report A"


def orphans_with_report(size):
    """One node, a stack whose bottom is amended, and a report."""
    yield from chain(size)
    yield f"amend A {label(0)} {label(size)}"
    yield "report A"


def chain_with_empty_reports(size):
    """One node and a chain of commits, and a thousand reports of another that holds nothing."""
    yield from chain(size)
    yield "node B"
    for _ in range(1_000):
        yield "report B"


# ---- refusals: so many of one kind, at a replica of the size


def refused(size, before, line):
    """One node with commits without parents, some lines that prepare, and one line again and again."""
    yield from roots(size)
    yield from before
    for _ in range(REFUSALS):
        yield line


FIRST, SECOND, OTHER, NEW = label(0), label(1), label(200_000), label(200_001)

REFUSED = {
    "an unknown node": (["node B", f"commit B {OTHER} draft"], f"amend A {OTHER} {NEW}"),
    "a hidden parent": ([f"amend A {FIRST} {OTHER}"], f"commit A {NEW} draft {FIRST}"),
    "a public node": ([f"phase A {FIRST} public"], f"amend A {FIRST} {NEW}"),
    "an obsolete node": ([f"amend A {FIRST} {OTHER}"], f"amend A {FIRST} {NEW}"),
    "a fold of what is no line": ([], f"fold A {NEW} {FIRST} {SECOND}"),
    "a fold of one": ([], f"fold A {NEW} {FIRST}"),
    "a phase that is raised": ([], f"phase A {FIRST} secret"),
    "a parent named twice": ([], f"commit A {NEW} draft {FIRST} {FIRST}"),
    "an id that is held": ([], f"commit A {FIRST} draft"),
}


def refused_below_a_hidden_stack(size):
    """One node with a stack that is pruned from its tip on, and commits on its bottom: each is refused."""
    yield from prunes(size)
    for _ in range(REFUSALS):
        yield f"commit A {label(size)} draft {label(0)}"


def refused_message(size, nodes):
    """One node and a changeset that was amended so often. What stands on the last amend is offered above that, with all
    markers, and so many empty nodes refuse the message, since none has the parent."""
    yield from amends(size)
    yield f"commit A above draft {label(size)}"
    yield f"offer A message {label(size)}"
    for number in range(nodes):
        yield f"node {number}"
        yield f"take {number} message"


# ---- exchange


def pull_into_an_empty_node(size):
    yield from chain(size)
    yield "node B"
    yield "pull B A"


def line_of_merges(size):
    """A line whose every second changeset merges the two before it, pulled, published at its tip and pulled again."""
    yield "node A"
    yield f"commit A {label(0)} draft"
    for number in range(1, size):
        further = "" if number % 2 else f" {label(number - 2)}"
        yield f"commit A {label(number)} draft {label(number - 1)}{further}"
    yield "node B"
    yield "pull B A"
    yield f"phase A {label(size - 1)} public"
    yield "pull B A"
    yield "agree A B"


def many_children(size):
    """A changeset with so many children, which is amended, published with one of them, and pulled."""
    yield "node A"
    yield f"commit A {label(0)} draft"
    for number in range(1, size + 1):
        yield f"commit A {label(number)} draft {label(0)}"
    yield f"amend A {label(0)} {label(size + 1)}"
    yield f"phase A {label(size)} public"
    yield "node B"
    yield "pull B A"
    yield "agree A B"


def pulls_between_many_heads(size):
    """Two nodes with so many heads each, none in common, that pull from each other."""
    for node, first in (("A", 0), ("B", size)):
        yield f"node {node}"
        for number in range(first, first + size):
            yield f"commit {node} {label(number)} draft"
    yield "pull B A"
    yield "pull A B"
    yield "agree A B"


def pulls_of_a_hundred(size):
    """Two nodes with a chain in common, and a hundred pulls of a commit more."""
    yield from pull_into_an_empty_node(size)
    for number in range(100):
        yield f"commit A {label(size + number)} draft {label(size + number - 1)}"
    yield "pull B A"
    yield "agree A B"


def pulls_of_nothing(size):
    """Two nodes in one state, and ten pulls."""
    yield from pull_into_an_empty_node(size)
    for _ in range(10):
        yield "pull B A"


def plain_offers(size):
    """Two nodes in one state, and ten offers of all that is served, each taken."""
    yield from pull_into_an_empty_node(size)
    for number in range(10):
        yield f"offer A {number}"
        yield f"take B {number}"


def amends_pulled(size):
    """A chain whose tip is amended on one side and pulled by the other, a hundred times."""
    yield from pull_into_an_empty_node(size)
    yield f"amend A {label(size - 1)} {label(size)}"
    for number in range(100):
        yield "pull B A"
        yield f"amend A {label(size + number)} {label(size + number + 1)}"


def pulls_by_a_node_ahead(size):
    """A chain that two nodes hold, a fourth more that the one holds alone, and a hundred times one more of the other,
    pulled: what the one holds alone is gone through each time."""
    yield from pull_into_an_empty_node(size)
    tip = label(size - 1)
    for number in range(size // 4):
        yield f"commit B o{number} draft {tip}"
        tip = f"o{number}"
    for number in range(100):
        yield f"commit A {label(size + number)} draft {label(size + number - 1)}"
        yield "pull B A"


def agreements(size):
    """Two nodes in one state, asked ten times whether they agree."""
    yield from pull_into_an_empty_node(size)
    for _ in range(10):
        yield "agree A B"


def divergent(size):
    """Roots, each of which is amended at two nodes, a pull and a report."""
    yield "node B"
    yield from roots(size)
    yield "pull B A"
    for number in range(size):
        yield f"amend A {label(number)} {label(size + number)}"
        yield f"amend B {label(number)} {label(2 * size + number)}"
    yield from ("pull B A", "report B")


class Line:
    """A line of changesets that grows and is rewritten at its tip; the first of them are public."""

    def __init__(self, node):
        self.node, self.labels, self.public = node, [], 0

    def may_lose(self, count):
        return len(self.labels) - self.public > count


def step(dice, line, other, new, next_new):
    """A command that is accepted at the tip of the line. A relocation goes to the tip of the other."""
    kind, mine, node = dice.random(), line.labels, line.node
    if kind < 0.12 and line.may_lose(1):
        old = mine.pop()
        mine.extend((new, next_new))
        return f"split {node} {old} {new} {next_new}"
    if kind < 0.20 and line.may_lose(2):
        high, low = mine.pop(), mine.pop()
        mine.append(new)
        return f"fold {node} {new} {low} {high}"
    if kind < 0.27 and line.may_lose(1):
        return f"prune {node} {mine.pop()}"
    if kind < 0.36 and line.may_lose(1) and other.labels and other is not line:
        old, onto = mine.pop(), other.labels[-1]
        other.labels.append(new)
        return f"relocate {node} {old} {new} {onto}"
    if kind < 0.50 and line.may_lose(1):
        old = mine.pop()
        mine.append(new)
        return f"amend {node} {old} {new}"
    if kind < 0.53 and line.may_lose(3):
        line.public += 1
        return f"phase {node} {mine[line.public - 1]} public"
    parent = f" {mine[-1]}" if mine else ""
    mine.append(new)
    return f"commit {node} {new} draft{parent}"


def mixed(size):
    """Three nodes that commit, amend, split, fold, prune, relocate, publish and pull, the same at each run."""
    dice = random.Random(15)
    nodes = "ABC"
    yield from (f"node {node}" for node in nodes)
    lines = {node: [Line(node) for _ in range(10)] for node in nodes}
    for number in range(size):
        mine = lines[dice.choice(nodes)]
        yield step(dice, dice.choice(mine), dice.choice(mine), label(2 * number), label(2 * number + 1))
        if number % (size // 20) == size // 20 - 1:
            yield f"pull {dice.choice(nodes)} {mine[0].node}"
    yield from ("agree A B", "agree B C", "agree C A")


# ---- many successors sets: an id that was split into 12, each of which was rewritten in two ways at two nodes


WIDE_PARTS = 12


def amends_of_parts(node, letter, parts):
    """Amends of so many parts at a node, from the last on."""
    for part in reversed(range(parts)):
        yield f"amend {node} p{part} {letter}{part}"


def wide_split(at_first=()):
    """Two nodes and an id `Y` that is split into 12, with some lines before. Once its parts are amended at both nodes
    it has 4,096 successors sets."""
    yield from ("node A", "node B", "commit A Y draft")
    yield from at_first
    yield "split A Y " + " ".join(f"p{part}" for part in range(WIDE_PARTS))
    yield "pull B A"


def split_at_its_own_node(number, *new):
    """A root that is split into these at a node of its own, where none of them is held yet."""
    yield f"node {number}"
    yield f"commit {number} x{number} draft"
    yield f"split {number} x{number} " + " ".join(new)


def pulled_into_one(size):
    """The nodes of so many splits pulled into one, which holds no fork until the last pull."""
    yield "node T"
    yield from (f"pull T {number}" for number in range(size))
    yield from ("pull T A", "pull T B")


def splits_into_a_wide_one(size, further):
    """Splits into `Y` and what is further for each number, pulled into one node."""
    yield from wide_split()
    yield from amends_of_parts("A", "a", WIDE_PARTS)
    yield from amends_of_parts("B", "b", WIDE_PARTS)
    for number in range(size):
        yield from split_at_its_own_node(number, "Y", further(number))
    yield from pulled_into_one(size)


def splits_and_reports(size, further=lambda number: f"z{number}", reports=1):
    yield from splits_into_a_wide_one(size, further)
    for _ in range(reports):
        yield "report T"


def splits_pulled_above_forks(size):
    """The same splits, each pulled by itself into a node that holds the forks already, and a report."""
    yield from splits_into_a_wide_one(0, None)
    for number in range(size):
        yield from split_at_its_own_node(number, "Y", f"z{number}")
        yield f"pull T {number}"
    yield "report T"


def splits_in_a_chain(size):
    """Splits in a chain above `Y`: each is into the one before and one more. They are pulled into one node."""
    yield from wide_split()
    yield from amends_of_parts("A", "a", WIDE_PARTS)
    yield from amends_of_parts("B", "b", WIDE_PARTS)
    for number in range(size):
        yield from split_at_its_own_node(number, f"x{number - 1}" if number else "Y", f"z{number}")
    yield from pulled_into_one(size)
    yield "report T"


def splits_that_meet_its_sets(size):
    """Splits into `Y` and one more that is in half of the sets of `Y`: its last part is relocated onto `Y`, and then
    split into that one and another at one node, and into two others at the other. So the sets differ in length."""
    last = WIDE_PARTS - 1
    yield from wide_split(["commit A k draft Y"])
    yield f"relocate A p{last} q Y"
    yield "pull B A"
    yield "split A q l m"
    yield "split B q r s"
    yield from amends_of_parts("A", "a", last)
    yield from amends_of_parts("B", "b", last)
    for number in range(size):
        yield from split_at_its_own_node(number, "Y", "l")
    yield from pulled_into_one(size)
    yield "report T"


def splits_met_between_its_parts(size):
    """Splits into `Y` and one of their own, which another id was split into, too, and that was rewritten in two ways.
    So a walk from what was rewritten in two ways, in the order of the markers, meets each one more behind the first
    part of `Y` and before the others."""
    last = WIDE_PARTS - 1
    yield from wide_split(f"commit A w{number} draft Y" for number in range(size))
    yield from amends_of_parts("A", "a", WIDE_PARTS)
    yield from (f"split A w{number} z{number} v{number}" for number in range(size))
    yield f"amend B p{last} b{last}"
    yield from (f"amend B w{number} c{number}" for number in range(size))
    yield from amends_of_parts("B", "b", last)
    for number in range(size):
        yield from split_at_its_own_node(number, "Y", f"z{number}")
    yield from pulled_into_one(size)
    yield "report T"


SIZES = (10_000, 20_000, 40_000)
SMALL = (5_000, 10_000, 20_000)
NAMED_SIZES = (7_000, 14_000, 28_000)

# Of each case the name, the lines, the sizes, and how many lines it prints: a refused line prints one, and so does each
# changeset of a report.
CASES = [
    ("commits in a chain", chain, SIZES, lambda size: 0),
    ("commits without parents", roots, SIZES, lambda size: 0),
    ("commits without parents, each named again", lambda size: roots_named_again([label(it) for it in range(size)]),
        NAMED_SIZES, lambda size: 0),
    ("commits of labels that meet, each named again", lambda size: roots_named_again(meeting_labels(size)),
        NAMED_SIZES, lambda size: 0),
    ("secret commits", secret_roots, SIZES, lambda size: 0),
    ("merges of the last two", merges, SMALL, lambda size: 0),
    ("amends of one tip", amends, SIZES, lambda size: 0),
    ("amends of a root, and a report", amends_of_a_root, (16_384, 32_768, 65_536), lambda size: size + 2),
    ("amends of the bottom of a stack", amends_below_a_stack, SMALL, lambda size: 0),
    ("splits", splits, SMALL, lambda size: 0),
    ("splits into 255", wide_splits, (240, 480, 960), lambda size: 0),
    ("splits into 1,360, all refused", splits_into_too_many, (64, 128, 256), lambda size: size),
    ("folds", folds, SMALL, lambda size: 0),
    ("prunes from the tip on", prunes, SMALL, lambda size: 0),
    ("old roots relocated onto the newest", relocations, SMALL, lambda size: 0),
    ("a stack evolved", evolved_stack, (2_500, 5_000, 10_000), lambda size: 0),
    ("a chain published one by one", published, SMALL, lambda size: 0),
    ("alternating phases published one by one", alternating_published, SMALL, lambda size: 0),
    ("roots published one by one, scattered", roots_published, SMALL, lambda size: 0),
    ("commits on an obsolete parent", commits_on_an_obsolete_parent, SIZES, lambda size: 0),
    ("amends above a changeset that was amended at two nodes", amends_above_a_fork, SMALL, lambda size: 0),
    ("prunes of the children of an amended changeset, from the first on",
        lambda size: prunes_of_children(size, range(size)), SMALL, lambda size: 0),
    ("the same, from the last on", lambda size: prunes_of_children(size, reversed(range(size))), SMALL, lambda size: 0),
    ("the top of a hidden stack pinned and unpinned 10 times",
        lambda size: pins_of_a_hidden_stack(size, size - 1), SMALL, lambda size: 0),
    ("its bottom pinned and unpinned 10 times", lambda size: pins_of_a_hidden_stack(size, 0), SMALL, lambda size: 0),
    ("roots pinned and unpinned one by one", pinned_roots, SMALL, lambda size: 0),
    ("commits in a chain, and a report", chain_with_report, SIZES, lambda size: size + 2),
    ("commits in a chain, and 1,000 reports of an empty node", chain_with_empty_reports, SIZES, lambda size: 2_000),
    ("a stack on an amended changeset, and a report", orphans_with_report, SIZES, lambda size: size + 3),
]
for _kind, (_before, _line) in REFUSED.items():
    CASES.append((
        f"1,000 refusals of {_kind}",
        lambda size, before=_before, line=_line: refused(size, before, line),
        SIZES,
        lambda size: REFUSALS,
    ))
for _nodes, _count in ((1, "one node"), (10, "ten"), (50, "fifty")):
    CASES.append((
        f"a message of so many markers, refused by {_count}",
        lambda size, nodes=_nodes: refused_message(size, nodes),
        SMALL,
        lambda size, nodes=_nodes: nodes,
    ))
CASES += [
    ("1,000 refusals of a hidden parent below a hidden stack", refused_below_a_hidden_stack, SMALL,
        lambda size: REFUSALS),
    ("a chain pulled into an empty node", pull_into_an_empty_node, SIZES, lambda size: 0),
    ("that, and 100 new ones pulled above it", pulls_of_a_hundred, SIZES, lambda size: 1),
    ("that, and 10 pulls of nothing", pulls_of_nothing, SIZES, lambda size: 0),
    ("that, and 10 offers of everything taken", plain_offers, SIZES, lambda size: 0),
    ("that, and 100 pulls of an amended tip", amends_pulled, SMALL, lambda size: 0),
    ("that, and 100 pulls of one by a node that is a fourth ahead", pulls_by_a_node_ahead, SMALL, lambda size: 0),
    ("that, and 10 times whether the nodes agree", agreements, SIZES, lambda size: 10),
    ("a line of merges, pulled, published and pulled", line_of_merges, SIZES, lambda size: 1),
    ("a changeset with so many children, amended, published and pulled", many_children, SIZES, lambda size: 1),
    ("pulls between nodes of so many heads each", pulls_between_many_heads, SMALL, lambda size: 1),
    ("roots amended at two nodes each, a pull and a report", divergent, SMALL, lambda size: 3 * size + 2),
    ("a mixed script with 20 pulls", mixed, (12_000, 24_000, 48_000), lambda size: 3),
]

# Of the 12 parts and the 24 changesets that they became, one is hidden. With `Y` and two lines around them that is 38.
WIDE_SIZES = (800, 1_600, 3_200)
MEETING_SIZES = (8, 16, 32)
WIDE_LINES = 38
CASES += [
    ("splits at nodes of their own into an id with 4,096 sets and one more", splits_and_reports, WIDE_SIZES,
        lambda size: WIDE_LINES + size),
    ("the same, where the one more is the same for all",
        lambda size: splits_and_reports(size, lambda number: "z"), WIDE_SIZES,
        lambda size: WIDE_LINES + 1),
    ("the same, where pairs share the one more",
        lambda size: splits_and_reports(size, lambda number: f"z{number // 2}"), WIDE_SIZES,
        lambda size: WIDE_LINES + size // 2),
    ("the same, where the one more is in half of the 4,096 sets", splits_that_meet_its_sets, MEETING_SIZES,
        lambda size: WIDE_LINES + 2),
    ("the same, where each one more is met between the parts of the id", splits_met_between_its_parts, WIDE_SIZES,
        lambda size: WIDE_LINES + 3 * size),
    ("the same in a chain, each into the one before and one more", splits_in_a_chain, (50, 100, 200),
        lambda size: WIDE_LINES - 1 + 2 * size),
    ("one such split, and so many reports", lambda size: splits_and_reports(1, reports=size), (2_000, 4_000, 8_000),
        lambda size: (WIDE_LINES + 1) * size),
    ("such splits pulled one by one above the forks, and a report", splits_pulled_above_forks, (16, 32, 64),
        lambda size: WIDE_LINES + size),
]
