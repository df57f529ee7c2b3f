#!/usr/bin/env bash
# Moves every date of the years 1 to 9999 by some day counts through the entry for payloads, and compares each answer with Python's
# calendar. Status 1 if one differs.
set -eu
cd "$(dirname "$0")/.."
out=target/harness
mkdir -p "$out"
bash harness/archive.sh
python3 - >"$out/dates.txt" <<'END'
from datetime import date
print("\n".join(date.fromordinal(n).isoformat().replace("-", "") for n in range(1, date.max.toordinal() + 1)))
END
gcc -std=c11 -O2 -Wall -Wextra -Werror -I crates/gateway/include harness/dates.c target/staticlib/libgateway.a -o "$out/dates"
"$out/dates" "$out/dates.txt" 1 -1 0 28 365 -366 3650 -3650
