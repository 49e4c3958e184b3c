#!/bin/sh
# Counts the host instructions that a step of `run` and of `chain` costs, with a trace and without one, where valgrind is
# installed: on three programs, a checksum, a hash, and loads, stores and products mixed, as the difference of two
# bounds. More than the limit says that something which was inlined into the step is no more.
run_limit=52
chain_limit=116
traced_run_limit=235
traced_chain_limit=310
top=$(cd "$(dirname "$0")/.." && pwd)
command -v rt >/dev/null || { echo "speed: skipped, since there is no rt"; exit 0; }
command -v valgrind >/dev/null || { echo "speed: skipped, since there is no valgrind"; exit 0; }
folder=$(mktemp -d)
trap 'rm -rf "$folder"' EXIT
cd "$folder" || exit 1
: >empty.txt
"$top/clic_tool" asm "$top/examples/first.s" >/dev/null || exit 1 # builds it, where it isn't

# The host instructions of a command with this bound, which ends with status 1.
count() {
    valgrind --tool=cachegrind --cache-sim=no --cachegrind-out-file=/dev/null \
        "$top/crates/clic_tool/out/clic_tool" "$@" 2>counts >/dev/null
    sed -n 's/,//g; s/.*I *refs: *//p' counts
}

# Holds a step to a limit: the limit, the step's name, `--trace` or nothing, and the words up to the bound.
hold() {
    limit=$1
    name=$2
    trace=$3
    shift 3
    few=$(count "$@" 100000 $trace)
    many=$(count "$@" 300000 $trace)
    if [ -z "$few" ] || [ -z "$many" ]; then
        echo "speed: skipped, since valgrind counted nothing"
        exit 0
    fi
    step=$(((many - few) / 200000))
    if [ "$step" -gt "$limit" ]; then
        echo "speed: $name costs $step host instructions, and not $limit at most" >&2
        exit 1
    fi
    echo "speed: $name costs $step host instructions"
}

for program in crc sha mix; do
    image=$top/tests/rows/$program.img
    hold "$run_limit" "a step of run in $program" "" run "$image" empty.txt
    hold "$chain_limit" "a step of chain in $program" "" chain "$image" empty.txt looping
    hold "$traced_run_limit" "a traced step of run in $program" --trace run "$image" empty.txt
    hold "$traced_chain_limit" "a traced step of chain in $program" --trace chain "$image" empty.txt looping
done
