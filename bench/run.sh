#!/bin/bash
# Builds the proved library, the program `meeting` and both Rust programs, compares the two gateways, counts instructions, times a
# million records, and prints the tables. What it makes lies in bench/out.
set -eu
cd "$(dirname "$0")/.."
kit=$(dirname "$(rt doc)")
out=bench/out
rm -rf "$out"
mkdir -p "$out/counts"

echo "building" >&2
(cd crates/exports && rt lib) >"$out/exports.log" 2>&1 || { tail "$out/exports.log" >&2; exit 1; }
(cd crates/meeting && rt run) >"$out/meeting.log" 2>&1 || { tail "$out/meeting.log" >&2; exit 1; }
rust() {
    rustc --edition 2024 -C opt-level=3 -C lto=fat -C codegen-units=1 -C panic=abort "$@"
}
rust bench/src/main.rs -o "$out/bench" -L native=crates/exports/out -L native="$kit/c" -l static=exports -l static=libc_c \
    -C link-arg=-Wl,--wrap=malloc,--wrap=calloc,--wrap=realloc,--wrap=free
rust bench/src/meeting.rs -o "$out/meeting"

echo "comparing" >&2
"$out/bench" compare >"$out/codes.txt"
"$out/bench" records 1000000 >"$out/million"
crates/meeting/out/meeting <"$out/million" >"$out/proved.txt"
"$out/meeting" <"$out/million" >"$out/plain.txt"
cmp "$out/proved.txt" "$out/plain.txt"

echo "counting" >&2
valgrind --tool=callgrind --callgrind-out-file="$out/counts/out" "$out/bench" count >"$out/callgrind.log" 2>&1

rt version
rustc --version
echo
"$out/bench" table "$out/counts"
"$out/bench" profile "$out/counts"

# The seconds of one run over the million records: in the program, in the system, by the clock.
timed() {
    local TIMEFORMAT="%U %S %R"
    { time "$1" <"$out/million" >/dev/null; } 2>&1
}
for turn in 1 2 3 4 5 6 7; do
    timed crates/meeting/out/meeting >>"$out/proved.times"
    timed "$out/meeting" >>"$out/plain.times"
done
# the middle one of seven
middle() {
    sort -n "$1" | sed -n 4p | { read -r program system clock; echo "$program | $system | $clock |"; }
}
echo
echo "| A million records through \`meeting\`, in seconds | In the program | In the system | By the clock |"
echo "|---|---:|---:|---:|"
echo "| Proved | $(middle "$out/proved.times")"
echo "| Plain Rust | $(middle "$out/plain.times")"
