#!/bin/sh
# Runs a program of this repository: its name, and its words. Where it isn't built yet, or its sources have changed, it
# is proved and built first (build.py). With --unproved as the first word it is looked at without proofs (look.py).
top=$(cd "$(dirname "$0")/.." && pwd)
name=$1
shift
program=$top/crates/$name/out/$name

# It was built whole, and nothing that it was built from is newer: the crates that the last build wrote down, or all.
is_built() {
    [ -x "$program" ] && ! [ -e "$program.building" ] && ! [ "$top/crates.txt" -nt "$program" ] || return 1
    newer=$(cd "$top" && find $(cat "$program.crates" 2>/dev/null || echo crates/*) -mindepth 1 \
        \( -name out -o -name must-fail \) -prune -o -newer "$program" -print -quit)
    [ -z "$newer" ]
}

needs_rt() {
    command -v rt >/dev/null || {
        echo "$name: there is no rt, the command of the Rattle kit, on the path" >&2
        exit 127
    }
}

if [ "$1" = --unproved ]; then
    shift
    needs_rt
    exec python3 "$top/tools/look.py" "$name" "$@"
fi
if ! is_built; then
    needs_rt
    python3 "$top/tools/build.py" "$name" || exit $?
fi
exec "$program" "$@"
