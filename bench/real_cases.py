"""What bench/real does in repositories of Mercurial: of each case a name, and lines of a repository and a command.

    make LABEL [FILE ..]     commits these files, or one of the label's name, with the label as description
    commands of hg           as they are
    set SECTION.NAME=VALUE   a setting of the repository from here on
    pull REPOSITORY          pulls from another repository of the case, and the result is compared too

A label in braces stands for the id of the newest changeset with that description, of one in view where there is one.
"""

STACK = """
A make base
A make a
A make b
A make c
"""

# A and B hold the changesets base and a, where base is public.
BOTH = """
A make base
A make a
A phase --public {base}
B pull A
"""

CASES = {
    "commits, some of them public and one secret": STACK + """
A make d
A phase --public {a}
A phase --secret --force {d}
""",
    "an amended tip": STACK + """
A commit --amend -m c2
A commit --amend -m c3
""",
    "an amend below children": STACK + """
A update {a}
A commit --amend -m a2
""",
    "orphans that are evolved": STACK + """
A update {a}
A commit --amend -m a2
A evolve --all
""",
    "an orphan on an orphan, one of them evolved": STACK + """
A update {a}
A commit --amend -m a2
A evolve --rev {b}
A update {a2}
A commit --amend -m a3
""",
    "an uncommit, and its rest as a changeset": """
A make base
A make a a1 a2
A uncommit a1 -m a-less
A make rest a1
""",
    "a split below a child": """
A make base
A make a a1 a2
A make b
A split --no-interactive --rev {a} a1
""",
    "a split whose child is evolved": """
A make base
A make a a1 a2 a3
A make b
A split --no-interactive --rev {a} a1
A evolve --all
""",
    "a fold of three": STACK + """
A fold --exact --rev {a}::{c} -m abc
""",
    "a fold below a child": STACK + """
A fold --exact --rev {a}::{b} -m ab
""",
    "a description below children": STACK + """
A metaedit --rev {a} -m a2
""",
    "a pruned tip, and what it stands on": STACK + """
A prune {c}
A prune {b}
""",
    "a prune below children": STACK + """
A prune {b}
""",
    "prunes with successors": STACK + """
A update {base}
A make x
A make y
A prune {c} --successor {x}
A prune {b} --successor {x} --successor {y} --split
""",
    "a rebased stack": STACK + """
A update {base}
A make main
A rebase --source {a} --dest {main}
""",
    "a rebased changeset whose child stays": STACK + """
A update {base}
A make main
A rebase --rev {b} --dest {main}
""",
    "a graft": STACK + """
A update {base}
A make main
A graft {b}
A graft --rev {c} --force
""",
    "a merge of what is amended afterwards": STACK + """
A update {base}
A make x
A merge {c}
A commit -m merge
A update {x}
A commit --amend -m x2
""",
    "a merge that is pruned": STACK + """
A update {base}
A make x
A merge {c}
A commit -m merge
A prune {merge}
""",
    "an amended merge": STACK + """
A update {base}
A make x
A merge {c}
A commit -m merge
A make after
A update {merge}
A commit --amend -m merge2
""",
    "branches, tags, a bookmark and odd texts": """
A make base
A branch other
A make a a "with a space" odd\udcff
A tag v1
A bookmark here
A update {base}
A make b
A commit --amend -m "first line\\n\\n  second line" --user "Zo\u00eb <zoe@example.org>" --date "1234567890 12600"
A update other
A commit --amend --close-branch -m closed
A metaedit --rev {closed} -m "caf\u00e9"
""",
    "what is obsolete and in view by a bookmark and the working directory": STACK + """
A bookmark --rev {c} here
A prune {c}
A update {base}
A make x
A commit --amend -m x2
A --hidden update {x}
""",
    "a changeset touched again": STACK + """
A commit --amend -m c2
A --hidden touch --rev {c} --duplicate
A touch --rev {c2} --duplicate
""",
    "an amend that is rewound": STACK + """
A commit --amend -m c2
A --hidden rewind --to {c}
""",
    "markers in format 0": """
A set format.obsstore-version=0
""" + STACK + """
A commit --amend -m c2
A prune {c2}
A update {a}
A commit --amend -m a2 --user somebody
A prune {a2} --date "1234567890 -7200"
""",
    "markers of every kind": STACK + """
A debugobsolete 1111111111111111111111111111111111111111 2222222222222222222222222222222222222222
A debugobsolete 2222222222222222222222222222222222222222 {c} --date "1234567890 12600" --user "it's me"
A debugobsolete 3333333333333333333333333333333333333333 {b} {c} --flags 4
A debugobsolete {b} --record-parents
""",
    "what is amended elsewhere": BOTH + """
B update {a}
B make b
A commit --amend -m a2
B pull A
A pull B
B evolve --rev {b}
A pull B
""",
    "two amends": BOTH + """
B update {a}
A commit --amend -m a-here
B commit --amend -m a-there
A pull B
B pull A
""",
    "two amends of which one is evolved": BOTH + """
B update {a}
A commit --amend -m a-here
B commit --amend -m a-there
A pull B
A evolve --content-divergent --any
B pull A
""",
    "two amends of which one is pruned": BOTH + """
B update {a}
A commit --amend -m a-here
B commit --amend -m a-there
A pull B
A prune {a-there} --successor {a-here}
B pull A
""",
    "an amend and a fold of the same": BOTH + """
A make b
B pull A
B update {a}
B commit --amend -m a-there
A fold --exact --rev {a}::{b} -m ab
B pull A
A pull B
""",
    "an amend of what is published elsewhere": BOTH + """
B update {a}
B phase --public {a}
A commit --amend -m a2
A make b
A pull B
B pull A
""",
    "the same, evolved": BOTH + """
B update {a}
B phase --public {a}
A commit --amend --date "1 0" -m a2
A make b
A update {a2}
A make a-more a
A fold --exact --rev {a2}::{a-more} -m a3
A pull B
A evolve --phase-divergent --any
A evolve --all
B pull A
""",
    "a part of a split is amended in two ways": """
A make base
A make a a1 a2
A split --no-interactive --rev {a} a1
A metaedit --rev {a} -m second
A metaedit --rev {a} -m first
A evolve --rev {second}
B pull A
B update {second}
A update {second}
A commit --amend -m second-here
B commit --amend -m second-there
A pull B
B pull A
""",
    "three repositories, one after the other": BOTH + """
C pull B
C update {a}
C make c
A commit --amend -m a2
B pull A
C pull B
C evolve --rev {c}
B pull C
A pull B
""",
    "a prune after a pull": BOTH + """
A make b
B pull A
A prune {b}
B pull A
A prune {a}
B pull A
""",
    "a secret changeset stays": BOTH + """
A make b
A phase --secret --force {b}
B pull A
A commit --amend -m b2
B pull A
A phase --draft {b2}
B pull A
""",
    "what publishes": BOTH + """
A set phases.publish=True
A make b
A commit --amend -m b2
B update {a}
B commit --amend -m a2
B pull A
""",
    "ids on a cycle of markers that were rewritten to others too": STACK + """
A update {base}
A make z
A make x
A make y
A debugobsolete {c} 1111111111111111111111111111111111111111
A debugobsolete 1111111111111111111111111111111111111111 {c}
A debugobsolete 1111111111111111111111111111111111111111 {z}
A debugobsolete {c} {x}
A debugobsolete {c} {y}
""",
}
