#!/usr/bin/env bash
# Builds the archive of the entries for C, target/staticlib/libgateway.a, unless it is there and no file of a crate is newer.
set -eu
cd "$(dirname "$0")/.."
archive=target/staticlib/libgateway.a
if [ -f "$archive" ] && [ -z "$(find crates crates.txt -path '*/out' -prune -o -newer "$archive" -print -quit)" ]; then
    exit 0
fi
mkdir -p target/harness target/staticlib
(cd crates/gateway && rt lib) >target/harness/staticlib.log 2>&1 || {
    cat target/harness/staticlib.log
    exit 1
}
cp crates/gateway/out/libgateway.a "$archive"
