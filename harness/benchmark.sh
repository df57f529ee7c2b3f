#!/usr/bin/env bash
# Times the port and the Rust on the same inputs, both built for release, and a floor in C. ER7_RUST is the folder of the Rust's sources.
set -eu
cd "$(dirname "$0")/.."
bash harness/rig/build.sh benchmark
target/harness/benchmark
