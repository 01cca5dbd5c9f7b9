# A changeset of the branch `stable` is amended here, merged, and published elsewhere as it was: it is phase-divergent.
. "$(dirname "$0")/settings.sh"
commit base
hg branch stable
commit fix
hg clone . .hg/server
hg -R .hg/server phase --public stable
hg commit --amend -m 'fix, amended'
hg update 'desc(base)'
commit other
hg merge stable
hg commit -m merge
hg pull .hg/server
