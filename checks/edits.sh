#!/bin/bash
# Whether the proofs reject more wrong programs: bash checks/edits.sh [CRATE ..]
#
# checks/edits/CRATE/WHAT.edit is a wrong program in the form of docs/CHANGING.md: one that would take the gate too long, one under a clause that is
# an equation, for some only where a hypothesis holds, or a mistake that the gate tries in another crate. The gate doesn't try
# these; here the proofs of each crate, or of those that are named, have to reject its edits. That takes a proof of the crate, and of those below it that are not built in this checkout.
#
# The last line is `N checked, M wrong`, and the status is 0 where M is 0.
KP=${KP:-:}
. "$(dirname "$0")/common.sh"
need rt
cd "$top" || exit 70
[ $# -gt 0 ] || set -- $(cd checks/edits && ls)
mkdir "$work/sources" && git ls-files -z crates crates.txt HANDLES | xargs -0 cp --parents -pt "$work/sources" || exit 70
for it in crates/*/out/rlib; do
    [ ! -d "$it" ] || { mkdir -p "$work/sources/${it%/*}" && cp -al "$it" "$work/sources/${it%/*}/" || exit 70; }
done
rm -rf "$work"/sources/crates/*/must-fail
edits=0
for crate; do
    [ -d "checks/edits/$crate" ] || { echo "there is no checks/edits/$crate"; exit 70; }
    cp -r "checks/edits/$crate" "$work/sources/crates/$crate/must-fail" || exit 70
    edits=$((edits + $(ls "checks/edits/$crate" | wc -l)))
done
cd "$work/sources" && mkdir .git || exit 70
rt must-fail "$@" > "$work/said" 2>&1 < /dev/null
cat "$work/said"
refused=$(grep -c 'must-fail .*: refused, as it must be' "$work/said")
echo "$edits checked, $((edits - refused)) wrong"
[ "$edits" -gt 0 ] && [ "$refused" -eq "$edits" ]
