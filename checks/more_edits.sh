#!/bin/sh
# Tries the wrong bodies of crates/NAME/more-edits, which the gate leaves out, in a copy of what is committed: the prover has to
# refuse each. Those of crates/NAME/must-fail, which the gate tries, are left out here.
# The gate tries each public promise turned once. An edit costs a check of its crate, which in the crates at the top is half a minute
# and more. So the edits here turn a promise a second time, or in a rarer way. Run it before a release, and for a crate whose
# contracts changed. An edit that is still proved is a contract to strengthen. One that a changed body makes a BAD EDIT is mended.
# usage: checks/more_edits.sh [CRATE..]
set -e
cd "$(dirname "$0")/.."
[ $# -gt 0 ] || set -- $(ls -d crates/*/more-edits | xargs -n 1 dirname | xargs -n 1 basename)
room=$(mktemp -d)
trap 'rm -rf "$room"' EXIT
git clone -q . "$room/copy"
cd "$room/copy"
for crate in "$@"; do
    rm "crates/$crate/must-fail/"*.edit
    cp "crates/$crate/more-edits/"*.edit "crates/$crate/must-fail/"
done
rt must-fail "$@"
