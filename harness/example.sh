#!/usr/bin/env bash
# Runs striplog and the C gateway of example/ on its log: both must print example/expected.txt.
set -eu
cd "$(dirname "$0")/.."
bash harness/archive.sh
bash harness/striplog.sh
gcc -std=c11 -Wall -Wextra -Werror -I crates/gateway/include example/gateway.c target/staticlib/libgateway.a -o target/harness/example
cd example
for program in ../target/bin/striplog ../target/harness/example; do
    "$program" >../target/harness/example.out
    cmp expected.txt ../target/harness/example.out
done
echo "example: striplog and the C gateway print expected.txt"
