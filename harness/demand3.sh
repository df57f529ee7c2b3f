#!/usr/bin/env bash
# Tries demand 3 on random pairs of messages. Arguments: seed (1) and number of pairs (100000). ER7_RUST is the folder of the Rust's
# sources. Status 1 if a pair whose premises hold comes out apart.
set -eu
cd "$(dirname "$0")/.."
bash harness/rig/build.sh demand3
target/harness/demand3 "${1:-1}" "${2:-100000}"
