#!/usr/bin/env bash
# Writes crates/vectors/data/sample.txt: the oracle's answers to a fixed choice of inputs. With --check it writes nothing and says whether
# the file is as made; status 1 if not. What was chosen is counted in target/harness/sample.log. ER7_RUST is the folder of the Rust's sources.
set -eu
cd "$(dirname "$0")/.."
bash harness/rig/build.sh sample
made=target/harness/sample.txt
target/harness/sample >"$made" 2>target/harness/sample.log
tail -1 target/harness/sample.log
if [ "${1:-}" = --check ]; then
    cmp "$made" crates/vectors/data/sample.txt && echo "sample.txt is as made"
else
    cp "$made" crates/vectors/data/sample.txt
fi
