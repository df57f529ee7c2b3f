#!/usr/bin/env bash
# Builds the program striplog, target/bin/striplog.
set -eu
cd "$(dirname "$0")/.."
mkdir -p target/harness target/bin
(cd crates/striplog && rt run) >target/harness/striplog.log 2>&1 || {
    cat target/harness/striplog.log
    exit 1
}
cp crates/striplog/out/striplog target/bin/striplog
