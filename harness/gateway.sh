#!/usr/bin/env bash
# Builds a C program over the entries for C and runs it: a line for each check, status 1 if one fails.
set -eu
cd "$(dirname "$0")/.."
bash harness/archive.sh
mkdir -p target/harness
gcc -std=c11 -Wall -Wextra -Werror -g -fsanitize=address,undefined -pthread -I crates/gateway/include \
    harness/gateway.c target/staticlib/libgateway.a -o target/harness/gateway
target/harness/gateway
