#!/bin/sh
# Builds the verified library and the hand-written program for release, compares their answers on the same inputs,
# and prints the library's time and instructions over those of the hand-written program. Nothing here is part of the gate.
set -eu
cd "$(dirname "$0")/.."
kit=$(dirname "$(rt doc)")
out=target/bench
mkdir -p "$out"

for crate in exports exports_text; do
    (cd "crates/$crate" && rt lib) > "$out/$crate.log" 2>&1 || { tail -n 3 "$out/$crate.log"; exit 1; }
done
rustc --edition 2024 -C opt-level=3 -C codegen-units=1 -L crates/exports/out -L crates/exports_text/out -L "$kit/c" -o "$out/bench" bench/main.rs
"$out/bench" compare
"$out/bench" time

# Instructions of so many repetitions of a job.
count() {
    case $tool in
        valgrind) valgrind --tool=callgrind --callgrind-out-file=/dev/null "$out/bench" repeat "$@" 2>&1 | sed -n 's/.*Collected : //p' ;;
        perf) perf stat -x, -e instructions:u "$out/bench" repeat "$@" 2>&1 > /dev/null | cut -d, -f 1 ;;
    esac
}

# Instructions of one job: what two more repetitions add, halved, so that the making of the input does not count.
steps() {
    once=$(count "$1" "$2" 1)
    thrice=$(count "$1" "$2" 3)
    echo $(((thrice - once) / 2))
}

if command -v valgrind > /dev/null; then
    tool=valgrind
elif perf stat -x, -e instructions:u true 2>&1 | grep -q '^[0-9]'; then
    tool=perf
else
    echo "no valgrind and no counters for perf: no instructions"
    exit 0
fi

for job in check run-4000-256 certificate transcript; do
    library=$(steps library "$job")
    hand=$(steps hand "$job")
    awk -v job="$job" -v l="$library" -v h="$hand" 'BEGIN { printf "%s: instruction ratio %.2f (%d to %d)\n", job, l / h, l, h }'
done

# One more high, on flat glass: what a run of n touches takes over a run of n - 1.
for last in 500 4000; do
    for touches in 16 64 256; do
        more=$(steps library "flat-$last-$touches")
        less=$(steps library "flat-$last-$((touches - 1))")
        echo "high on a bed of last $last, from $((touches - 1)) touches to $touches: $((more - less)) instructions"
    done
done
