#!/bin/sh
# Makes a sweep in parts, side by side, by GNU parallel, and brings their lines together:
#
#     sweep.sh IMAGE SCENARIO DISPATCHER BOUND EVENT FROM TO [--direct]
#
# PARTS says in how many parts, else as many as there are processors here. HOSTS says on which machines, as the option
# --sshlogin of parallel: HOSTS=:,lab1,lab2 are this one and two more, to which the program and both files are copied.
# The status is that of one sweep of all counts.
top=$(cd "$(dirname "$0")/../.." && pwd)
image=$1
scenario=$2
if [ $# -lt 7 ]; then
    echo "usage: $0 IMAGE SCENARIO DISPATCHER BOUND EVENT FROM TO [--direct]" >&2
    exit 2
fi
shift 2
command -v parallel >/dev/null || { echo "$0: there is no GNU parallel" >&2; exit 127; }
"$top/clic_lab" >/dev/null # so that it is built: no word is no command
parts=${PARTS:-$(nproc)}
folder=$(mktemp -d)
trap 'rm -rf "$folder"' EXIT
cp "$top/crates/clic_lab/out/clic_lab" "$folder/clic_lab" && cp "$image" "$folder/image" && cp "$scenario" "$folder/scenario" || exit 1
cd "$folder" || exit 1
seq 0 $((parts - 1)) |
    parallel --will-cite ${HOSTS:+--sshlogin "$HOSTS" --workdir ... --basefile clic_lab --basefile image --basefile scenario} \
        ./clic_lab sweep image scenario "$@" --part "{}/$parts" >lines
awk '
    # Outcomes are alike where all behind the second number is.
    $3 == "end" {
        outcome = $0
        sub(/^[0-9]+ [0-9]+ /, "", outcome)
        counts[outcome] += $1
        if (!(outcome in first) || $2 < first[outcome]) first[outcome] = $2
        next
    }
    { print > "other" }
    END { for (outcome in counts) print counts[outcome], first[outcome], outcome }
' lines | sort -n -k 2 >sums
if [ -s other ]; then
    sort -u other
    exit 5
fi
cat sums
grep -q ' end broken ' sums && exit 8
grep -q ' end budget' sums && exit 1
exit 0
