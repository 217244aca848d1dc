#!/bin/sh
# Counts the instructions of a unit of each workload, a step, a byte, a call, on both machines: a run of three times the units less one of one time, by
# `valgrind --tool=callgrind`. The same program gives the same counts again. An instruction that repeats (`rep stosb`) counts once a turn.
#
#   counts.sh                         all workloads of `counted names`, as lines of a table
#   counts.sh 'DINT loop, a step'     one of them
set -eu
here=$(cd "$(dirname "$0")/.." && pwd)
(cd "$here" && cargo build --release --quiet --package trials --bin counted)
counted=$here/target/release/counted
made=$(mktemp -d)
trap 'rm -r "$made"' EXIT

# The instructions and the units of one run: MACHINE NAME TIMES
run() {
    valgrind --tool=callgrind --callgrind-out-file="$made/out" --log-file="$made/log" "$counted" "$1" "$2" "$3" > "$made/units"
    sed -n 's/.*Collected : //p' "$made/log"
    cat "$made/units"
}

# What one unit takes: MACHINE NAME
unit() {
    { run "$1" "$2" 1 && run "$1" "$2" 3; } | paste -s -d ' ' - | awk '{ printf "%.4f", ($3 - $1) / ($4 - $2) }'
}

names() {
    if [ $# -gt 0 ]; then printf '%s\n' "$@"; else "$counted" names; fi
}

echo "| instructions | Rust | Rikzord | ratio |"
echo "|---|---|---|---|"
names "$@" | while IFS= read -r name; do
    rikzord=$(unit rikzord "$name")
    # The reference reruns by single steps that judge all each time: no yardstick.
    case $name in rerun*) reference=0 ;; *) reference=$(unit reference "$name") ;; esac
    echo "$reference $rikzord" | awk -v name="$name" '
        $1 > 0 { printf "| %s | %.1f | %.1f | %.2f |\n", name, $1, $2, $2 / $1 }
        $1 == 0 { printf "| %s | | %.1f | |\n", name, $2 }'
done
