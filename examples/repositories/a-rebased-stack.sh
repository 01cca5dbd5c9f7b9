# A stack of three, of which the lower two are rebased: the third stays behind as an orphan.
. "$(dirname "$0")/settings.sh"
commit base
commit feature
commit tests
commit docs
hg update 'desc(base)'
commit main
hg rebase -r 'desc(feature) + desc(tests)' -d 'desc(main)'
