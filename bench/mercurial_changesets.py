"""A Mercurial extension with one command, which makes a repository of the changesets of a message.

    hg --config extensions.fleetchangesets=bench/mercurial_changesets.py fleetfill [--all] MESSAGE FOLDER

fails where Mercurial computes another id for a changeset than the message has for it. With --all the bounds and the
markers of the message are put in too, the markers as Mercurial keeps them by itself. Without it all is public.
"""
import contextlib
import os
import sys

from mercurial import error, hg, phases, registrar

sys.path.append(os.path.join(os.path.dirname(os.path.dirname(os.path.realpath(__file__))), "tools"))
import formats  # noqa: E402

cmdtable = {}
command = registrar.command(cmdtable)


def draft_roots(message):
    """The ids of the draft changesets of a message that stand on no draft one."""
    public, drafts = {node for phase, node in message.bounds if phase == formats.PUBLIC}, []
    for found in reversed(message.changesets):
        if found.node in public:
            public.update((found.first, found.second))
        else:
            drafts.append(found)
    public.add(formats.NULL)
    return [found.node for found in drafts if public.issuperset((found.first, found.second))]


def put(log, transaction, changesets):
    """Puts changesets into an empty log, whose files stay open meanwhile where this Mercurial can do that."""
    with getattr(log, "_writing", contextlib.nullcontext)(transaction):
        for place, found in enumerate(changesets):
            log.addrevision(found.text, transaction, place, found.first, found.second)
            if len(log) != place + 1 or log.node(place) != found.node:
                raise error.Abort(b"another id at record %d" % place)


@command(b"fleetfill", [(b"", b"all", False, b"with its bounds and markers")], b"MESSAGE FOLDER", norepo=True)
def fleetfill(ui, message, folder, **asked):
    """makes a repository of the changesets of a message"""
    try:
        with open(message, "rb") as it:
            said = formats.read_message(it.read())
    except formats.Fault as fault:
        raise error.Abort(str(fault).encode())
    repo = hg.repository(ui, folder, create=True)
    with repo.lock(), repo.transaction(b"fill") as transaction:
        put(repo.unfiltered().changelog, transaction, said.changesets)
        if asked["all"]:
            phases.retractboundary(repo, transaction, phases.draft, draft_roots(said))
            repo.obsstore.mergemarkers(transaction, said.store)
    return 0
