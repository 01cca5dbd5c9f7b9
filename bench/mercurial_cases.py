"""A Mercurial extension with one command, which does what a case of hg_bench does, in process, and tells what it took.

    hg --config extensions.evolve= --config extensions.fleet=bench/mercurial.py \\
        --config extensions.fleetcases=bench/mercurial_cases.py fleetcase CASE SIZE

prints the seconds of processor time of what is measured, without the building of what it needs. A case that ends with
`-in-format-1` works on markers in the format that Mercurial writes by itself, the others of its kind in format 0.
"""
import time
from functools import partial

from mercurial import discovery, extensions, obsolete, obsutil, registrar, repoview

cmdtable = {}
command = registrar.command(cmdtable)


# ---- what is built


def id_of(number):
    """An id for each number, none of them null."""
    return (number + 1).to_bytes(8, "big") + bytes(12)


def marker(old, new, version=0):
    """A marker that takes 200 bytes as written in this version of the format."""
    return old, (new,), 0, ((b"user", b"x" * (135 if version else 140)),), (0, 0), None


def chain(fleet, size):
    """The repository of a node with a chain of changesets."""
    fleet.do_node(b"A")
    fleet.do_commit(b"A", b"0", b"draft")
    for number in range(1, size):
        fleet.do_commit(b"A", b"%d" % number, b"draft", b"%d" % (number - 1))
    return fleet.at(b"A")


def add(fleet, repo, markers):
    """Adds markers, and forgets what is known of their repository."""
    repo.obsstore.add(repo.currenttransaction(), markers)
    fleet.close()
    repo.invalidatevolatilesets()


# ---- the cases: each builds what it needs, and gives the work that is measured


def of_markers(work, version, fleet, size):
    """A work on markers in a chain and their bytes."""
    fleet.do_node(b"A")
    markers = [marker(id_of(number), id_of(number + 1), version) for number in range(size)]
    return partial(work, fleet.nodes[b"A"], version, markers, b"".join(obsolete.encodemarkers(markers, True, version)))


def write_markers(repo, version, markers, data):
    return b"".join(obsolete.encodemarkers(markers, True, version))


def list_markers(repo, version, markers, data):
    return list(obsolete._readmarkers(data)[1])


def read_markers(repo, version, markers, data):
    store = obsolete.obsstore(repo, repo.svfs)
    store._data = data
    return store.successors, store.predecessors, store.children


def of_chains(work, length, are_paired, fleet, size):
    """A work on markers in chains, each from an id that isn't held to a draft root."""
    fleet.do_node(b"A")
    repo, markers = fleet.at(b"A"), []
    length = length or size
    for number in range(size // length):
        fleet.do_commit(b"A", b"%d" % number, b"draft")
        ids = [id_of(number * length + step) for step in range(length)] + [fleet.labels[b"%d" % number]]
        if are_paired:
            ids[0] = id_of((number & ~1) * length)
        markers += [marker(old, new) for old, new in zip(ids, ids[1:])]
    add(fleet, repo, markers)
    return partial(work, repo)


def tell_sets(repo):
    told = {}
    for node in repo.obsstore.successors:
        obsutil.successorssets(repo, node, cache=told)


def tell_instabilities(repo):
    return [obsolete.getrevs(repo, name) for name in (b"suspended", b"extinct", b"phasedivergent", b"contentdivergent")]


def tell_instabilities_and_views(repo):
    return tell_instabilities(repo), [repoview.filterrevs(repo, name) for name in (b"visible", b"served")]


def of_amended_stack(work, fleet, size):
    """A work on a stack whose bottom was amended."""
    repo = chain(fleet, size)
    fleet.do_amend(b"A", b"0", b"amended")
    add(fleet, repo, [])
    return partial(work, repo)


def of_offer(work, fleet, size):
    """A work on what is served of a chain of changesets, each of which an id that isn't held was rewritten to."""
    repo = chain(fleet, size)
    add(fleet, repo, [marker(id_of(number), repo[number].node()) for number in range(size)])
    fleet.do_node(b"B")
    fleet.do_offer(b"A", b"offer")
    return partial(work, fleet, repo.filtered(b"served"))


def find_offer(fleet, repo):
    missing = discovery.outgoing(repo, [repo.nullid], repo.heads()).missing
    return missing, repo.obsstore.relevantmarkers(missing)


def send_offer(fleet, repo):
    fleet.do_offer(b"A", b"sent")


def take_offer(fleet, repo):
    fleet.do_take(b"B", b"offer")


CASES = {"instabilities": partial(of_amended_stack, tell_instabilities_and_views)}
for _name, _work in (("write", write_markers), ("list", list_markers), ("read", read_markers)):
    CASES[_name] = partial(of_markers, _work, 0)
    CASES[_name + "-in-format-1"] = partial(of_markers, _work, 1)
for _name, _work in (("sets", tell_sets), ("divergence", tell_instabilities)):
    CASES[_name + "-of-chains"] = partial(of_chains, _work, 1_000, False)
    CASES[_name + "-of-pairs"] = partial(of_chains, _work, 1_000, True)
    CASES[_name + "-of-one-chain"] = partial(of_chains, _work, None, False)
for _name, _work in (("find-offer", find_offer), ("send-offer", send_offer), ("take-offer", take_offer)):
    CASES[_name] = partial(of_offer, _work)


@command(b"fleetcase", [], b"CASE SIZE", norepo=True)
def fleetcase(ui, case, size):
    """does a case of hg_bench, and tells the seconds of processor time"""
    scripts = extensions.find(b"fleet")
    with scripts.room() as folder:
        work = CASES[case.decode()](scripts.Fleet(ui, folder, False), int(size))
        begin = time.process_time()
        work()
        ui.write(b"%.6f\n" % (time.process_time() - begin))
    return 0
