#!/usr/bin/env bash
# Builds the Rust as two libraries under target/harness/oracle: its sources are read from the folder ER7_RUST, by default
# ../shared/docs/src beside the repository; what they lean on outside it stands in here. What has changed since is altered in a copy
# under target, place by place: one that is not found there exactly once ends the build.
set -eu
root=$(cd "$(dirname "$0")/../.." && pwd)
rust=$(cd "${ER7_RUST:-$root/../shared/docs/src}" && pwd)
out=$root/target/harness/oracle
mkdir -p "$out/er7" "$out/er7_redact"
for f in message path render separators; do ln -sf "$rust/er7/src/$f.rs" "$out/er7/$f.rs"; done
for f in action policy pseudonym redact; do cp --remove-destination "$rust/er7-redact/src/$f.rs" "$out/er7_redact/$f.rs"; done
ln -sf "$root/harness/oracle/er7/lib.rs" "$root/harness/oracle/er7/escape.rs" "$out/er7/"
ln -sf "$root/harness/oracle/er7_redact/lib.rs" "$root/harness/oracle/er7_redact/days.rs" "$out/er7_redact/"

# Puts NEW in the place of OLD in the copy of FILE.
alter() {
    local file=$out/$1 text rest
    text=$(cat "$file" && printf x)
    text=${text%x}
    rest=${text//"$2"/}
    if [ $((${#text} - ${#rest})) -ne ${#2} ]; then
        echo "$1: not found exactly once: $2" >&2
        exit 1
    fi
    printf '%s' "${text/"$2"/"$3"}" >"$file"
}

# A hit that begins inside another hit: every starting place is tried.
alter er7_redact/redact.rs 'haystack.match_indices(needle)' 'crate::every_place(haystack, needle)'
# The longest learnt value: of equally long ones max_by_key takes the last.
alter er7_redact/redact.rs '.find(|(known, _)| contains_whole_word(&value, known))' \
    '.filter(|(known, _)| contains_whole_word(&value, known)).max_by_key(|(known, _)| known.len())'
# Dates moved: the action shift with its day count.
alter er7_redact/action.rs 'Custom(CustomAction),' 'Custom(CustomAction), Shift(i64),'
# Its reading: i64 takes one sign and any leading zeros. A refusal has words of its own.
alter er7_redact/action.rs '"" => bad(' '"shift" => match argument.parse() {
                Ok(days @ -3650..=3650) => Ok(Action::Shift(days)),
                _ => bad(format!("action \"shift\" wants a number of days, not {argument:?}")),
            },
            "" => bad('
# What it writes.
alter er7_redact/action.rs 'Action::Custom(custom) =>' 'Action::Shift(days) => Some(crate::days::moved(value, *days)),
            Action::Custom(custom) =>'
# How it prints.
alter er7_redact/action.rs 'Action::Custom(_) =>' 'Action::Shift(days) => write!(f, "shift {days}"),
            Action::Custom(_) =>'

rustc --edition 2024 -C opt-level=3 --crate-type rlib --crate-name er7 "$out/er7/lib.rs" --out-dir "$out"
rustc --edition 2024 -C opt-level=3 --crate-type rlib --crate-name er7_redact "$out/er7_redact/lib.rs" --extern "er7=$out/liber7.rlib" \
    -L "$out" --out-dir "$out"
