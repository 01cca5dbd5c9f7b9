# A changeset is amended here and in a clone, and one pulls from the other: both are content-divergent.
. "$(dirname "$0")/settings.sh"
commit base
commit a
hg clone . .hg/theirs
hg -R .hg/theirs commit --amend -m 'a, theirs'
hg commit --amend -m 'a, mine'
hg pull .hg/theirs
