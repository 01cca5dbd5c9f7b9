"""A Mercurial extension with one command, which does the lines of a script in process and tells what they took.

    hg -q --config extensions.evolve= --config extensions.fleet=bench/mercurial.py --config phases.publish=no \\
        fleet [--told] [SCRIPT]

prints the seconds of processor time that the script took, from its first line to its last, and how many lines it would
have printed: one for each that was refused, and those of reports and of `agree`. With --told they are printed too, of a
refusal what Mercurial says. Without a script the command prints the version.

The lines between two exchanges are one transaction. Changesets have no files. Repositories are temporary. Where
Mercurial has a cheap way to ask and a dear one, the cheap one is taken: what is hidden is only found out for new
parents.
"""
import io
import os
import tempfile
import time

from mercurial import bundle2, context, error, exchange, extensions, hg, obsolete, phases
from mercurial import registrar, repoview, rewriteutil, util

cmdtable = {}
command = registrar.command(cmdtable)

# What Mercurial answers where it refuses a line.
REFUSED = (error.Abort, error.RepoError, error.RepoLookupError, error.LookupError)

# The words of a report, and the sets that they tell of.
WORDS = {
    b"obsolete": b"obsolete", b"suspended": b"suspended", b"extinct": b"extinct", b"orphan": b"orphan",
    b"phase-divergent": b"phasedivergent", b"content-divergent": b"contentdivergent",
}

# A marker has room for so many successors.
MOST_SUCCESSORS = 255


class Fleet:
    """Repositories by name, the id of each label, and the bytes of each message."""

    def __init__(self, ui, room, told):
        self.ui, self.room, self.told = ui, room, told
        self.nodes, self.labels, self.messages, self.opened = {}, {}, {}, {}
        self.printed = 0

    def do(self, number, line):
        """Does a line of a script, whose words are not at fault."""
        words = line.split()
        if not words or line.startswith(b"#"):
            return
        try:
            getattr(self, "do_" + words[0].decode())(*words[1:])
        except REFUSED as refusal:
            self.tell([b"%d: %s" % (number, str(refusal).encode())])

    def tell(self, lines):
        self.printed += len(lines)
        if self.told:
            self.ui.write(b"".join(line + b"\n" for line in lines))

    # ---- transactions

    def at(self, name):
        """The repository of a node with its hidden changesets, and with its transaction open."""
        repo = self.nodes[name].unfiltered()
        if name not in self.opened:
            lock = repo.lock()
            self.opened[name] = (lock, repo.transaction(b"fleet"))
        return repo

    def close(self):
        """Closes all transactions, so that other repositories see what was done."""
        for lock, transaction in self.opened.values():
            transaction.close()
            lock.release()
        self.opened.clear()

    # ---- operations

    def do_node(self, name):
        self.nodes[name] = hg.repository(self.ui, os.path.join(self.room, name), create=True)

    def parents(self, at, labels):
        """The ids of new parents, which have to be held and visible."""
        nodes = [self.nodes[at][self.labels[label]].node() for label in labels]
        return tuple(nodes + [self.nodes[at].nullid] * (2 - len(nodes)))

    def make(self, repo, label, parents, phase, extra=None):
        """A new changeset without files, whose description is the label, and which the label names from now on."""
        made = context.memctx(repo, parents, label, [], lambda *_: None, user=b"fleet", date=b"0 0", extra=extra or {})
        with repo.ui.configoverride({(b"phases", b"new-commit"): phase}, b"fleet"):
            self.labels[label] = repo.commitctx(made)
        return repo[self.labels[label]]

    def mark(self, repo, old, new, word):
        metadata = {b"user": b"fleet"}
        obsolete.createmarkers(repo, [(tuple(old), tuple(new))], date=(0, 0), metadata=metadata, operation=word)

    def old(self, repo, label, word):
        """The changeset of a label, where it may be rewritten."""
        found = repo[self.labels[label]]
        rewriteutil.precheck(repo, [found.rev()], word)
        if found.obsolete():
            raise error.Abort(b"an obsolete changeset")
        return found

    def do_commit(self, at, new, phase, *parents):
        repo = self.at(at)
        self.make(repo, new, self.parents(at, parents), phase)

    def do_amend(self, at, old, new):
        repo = self.at(at)
        found = self.old(repo, old, b"amend")
        parents = found.p1().node(), found.p2().node()
        made = self.make(repo, new, parents, found.phasestr(), {b"amend_source": found.hex()})
        self.mark(repo, [found], [made], b"amend")

    def do_split(self, at, old, *new):
        repo = self.at(at)
        found = self.old(repo, old, b"split")
        if not 2 <= len(new) <= MOST_SUCCESSORS:
            raise error.Abort(b"too few or too many parts")
        parents, made = (found.p1().node(), found.p2().node()), []
        for label in new:
            made.append(self.make(repo, label, parents, found.phasestr()))
            parents = made[-1].node(), repo.nullid
        self.mark(repo, [found], made, b"split")

    def do_fold(self, at, new, *old):
        repo = self.at(at)
        found = [self.old(repo, label, b"fold") for label in old]
        if len(found) < 2 or any(high.p1() != low or high.p2().rev() >= 0 for low, high in zip(found, found[1:])):
            raise error.Abort(b"not a line of changesets")
        made = self.make(repo, new, (found[0].p1().node(), found[0].p2().node()), found[-1].phasestr())
        self.mark(repo, found, [made], b"fold")

    def do_prune(self, at, old):
        repo = self.at(at)
        self.mark(repo, [self.old(repo, old, b"prune")], [], b"prune")

    def do_relocate(self, at, old, new, *parents):
        repo = self.at(at)
        found = self.old(repo, old, b"rebase")
        onto = self.parents(at, parents)
        if any(found.isancestorof(repo[node]) for node in onto):
            raise error.Abort(b"a parent is a descendant")
        made = self.make(repo, new, onto, found.phasestr(), {b"rebase_source": found.hex()})
        self.mark(repo, [found], [made], b"rebase")

    def do_phase(self, at, label, phase):
        repo = self.at(at)
        found, asked = repo[self.labels[label]], phases.phasenumber[phase]
        if found.phase() < asked:
            raise error.Abort(b"a phase is not raised")
        phases.advanceboundary(repo, repo.currenttransaction(), asked, [found.node()])

    # ---- exchange

    def do_pull(self, to, source):
        self.close()
        exchange.pull(self.nodes[to], self.nodes[source].peer(), force=True)

    def do_offer(self, at, message, *labels):
        """The message is the bundle that a server gives to who has these changesets and asks for all that is served."""
        self.close()
        repo = self.nodes[at].unfiltered()
        common = [repo[self.labels[label]].node() for label in labels] or [repo.nullid]
        self.messages[message] = bundle_of(repo.filtered(b"served"), common)

    def do_take(self, at, message):
        self.close()
        take(self.nodes[at], self.messages[message])

    # ---- reports

    def do_report(self, at):
        self.close()
        repo = self.nodes[at].unfiltered()
        hidden = repoview.filterrevs(repo, b"visible")
        sets = [(word, obsolete.getrevs(repo, name)) for word, name in WORDS.items()] + [(b"hidden", hidden)]
        lines = []
        for rev in repo:
            found = repo[rev]
            words = [found.description(), found.phasestr()] + [word for word, revs in sets if rev in revs]
            lines.append(b" ".join(words))
        self.tell([b"report " + at, *sorted(lines), b"%d changesets %d markers" % (len(lines), len(repo.obsstore))])

    def do_agree(self, one, other):
        self.close()
        first, second = (self.state(self.nodes[name].unfiltered()) for name in (one, other))
        self.tell([b"agree %s %s: %s" % (one, other, b"yes" if first == second else b"no")])

    def state(self, repo):
        return {(repo[rev].node(), repo[rev].phase()) for rev in repo}, set(repo.obsstore)


def bundle_of(repo, common):
    """The bytes of all that a view of a repository gives to who has these changesets."""
    asked = dict(cg=True, obsmarkers=True, phases=True)
    caps = exchange.caps20to10(repo, role=b"client")
    _info, chunks = exchange.getbundlechunks(repo, b"pull", heads=repo.heads(), common=common, bundlecaps=caps, **asked)
    return b"".join(chunks)


def take(repo, message):
    """Takes the bytes of a bundle in."""
    with repo.lock(), repo.transaction(b"take") as transaction:
        bundle2.applybundle(repo, exchange.readbundle(repo.ui, io.BytesIO(message), None), transaction, source=b"pull")


@command(b"fleet", [(b"", b"told", False, b"print the lines too")], b"[SCRIPT]", norepo=True)
def fleet(ui, *scripts, told=False):
    """does the lines of a script, and tells the seconds of processor time and how many lines it would have printed"""
    extensions.find(b"evolve")
    if not scripts:
        ui.write(b"%s\n" % util.version())
        return 0
    with room() as folder, open(scripts[0], "rb") as script:
        done = Fleet(ui, folder, told)
        begin = time.process_time()
        for number, line in enumerate(script, 1):
            done.do(number, line)
        done.close()
        ui.write(b"%.6f %d\n" % (time.process_time() - begin, done.printed))
    return 0


def room():
    """A temporary folder, in memory where there is such a place."""
    return tempfile.TemporaryDirectory(dir=b"/dev/shm" if os.path.isdir("/dev/shm") else None, prefix=b"fleet")
