#!/usr/bin/env bash
# Tries the wrong programs in crates/NAME/tried, which the gate leaves out for its time: the prover must refuse each, and because of a
# fact: a proof that does not fit the changed code's form shows nothing. Prints for each what the prover said first.
# Arguments: --gate to try those of must-fail/ too, and the names of crates, or none for all.
set -eu
root=$(cd "$(dirname "$0")/.." && pwd)
gate=0
if [ "${1:-}" = --gate ]; then
    gate=1
    shift
fi
room=$(mktemp -d)
trap 'rm -rf "$room"' EXIT
cp -r "$root/crates.txt" "$root/crates" "$room"
cd "$room"
[ $gate = 1 ] || rm -rf crates/*/must-fail
names=${*:-$(cd crates && ls -d */tried */must-fail 2>/dev/null | xargs -n 1 dirname | sort -u)}
for name in $names; do
    [ -d "crates/$name/tried" ] || continue
    mkdir -p "crates/$name/must-fail"
    mv "crates/$name/tried"/*.edit "crates/$name/must-fail"
done
# shellcheck disable=SC2086
rt must-fail $names 2>&1 | tee "$room/said"
status=${PIPESTATUS[0]}
form=$(grep -c 'only because a proof file names' "$room/said" || true)
[ "$form" = 0 ] || { echo "$form refused for their form" && exit 1; }
exit $status
