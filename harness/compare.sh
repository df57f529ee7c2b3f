#!/usr/bin/env bash
# Compares the port with the Rust: every result of every entry on all short inputs and on seeded random ones. Arguments: seed (1) and
# number of random inputs (200000). ER7_RUST is the folder of the Rust's sources. Status 1 if one result differs.
set -eu
cd "$(dirname "$0")/.."
bash harness/rig/build.sh compare
target/harness/compare "${1:-1}" "${2:-200000}"
