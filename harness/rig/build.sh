#!/usr/bin/env bash
# Builds the port's archive, the Rust and one program of this folder over both: target/harness/NAME.
set -eu
cd "$(dirname "$0")/../.."
out=target/harness
mkdir -p "$out"
bash harness/archive.sh
bash harness/oracle/build.sh
gcc -std=c11 -O3 -c harness/rig/floor.c -o "$out/floor.o"
rustc --edition 2024 -C opt-level=3 "harness/rig/$1.rs" --extern "er7=$out/oracle/liber7.rlib" \
    --extern "er7_redact=$out/oracle/liber7_redact.rlib" -L "$out/oracle" -C link-arg=target/staticlib/libgateway.a \
    -C link-arg="$out/floor.o" -o "$out/$1"
