# What the scripts with rows share. A script sets $script, its name, and $tool, where
# its program isn't clic_tool, and reads this file with `.`; then it stands at the
# top of the repository with the program built, and has a folder of its own.
top=$(cd "$(dirname "$0")/.." && pwd)
command -v rt >/dev/null || { echo "$script: skipped, since there is no rt"; exit 0; }
folder=$(mktemp -d)
trap 'rm -rf "$folder"' EXIT
written=$folder/written
wanted=$folder/wanted
cd "$top" || exit 1
tool=${tool:-clic_tool}
"./$tool" >/dev/null # so that it is built
program=$top/crates/$tool/out/$tool
[ -x "$program" ] || exit 1

fail() {
    echo "$script: $*" >&2
    exit 1
}

# The status, and the words of the command. Nothing goes to standard error.
answers() {
    status=$1
    shift
    "$program" "$@" >"$written" 2>"$folder/complaint"
    given=$?
    [ "$given" -eq "$status" ] || fail "$*: status $given in place of $status"
    [ ! -s "$folder/complaint" ] || fail "$*: standard error isn't empty"
}

# The status, a file with the text, and the words.
writes() {
    status=$1
    text=$2
    shift 2
    answers "$status" "$@"
    cmp "$written" "$text" || fail "$*: another text"
}

# The status, the text as printf writes it, and the words.
says() {
    status=$1
    printf "$2" >"$wanted"
    shift 2
    writes "$status" "$wanted" "$@"
}

# The status, how the text begins, and the words.
begins() {
    status=$1
    front=$2
    shift 2
    answers "$status" "$@"
    printf "$front" >"$wanted"
    head -c "$(wc -c <"$wanted")" "$written" | cmp - "$wanted" || fail "$*: another text"
}

# The text that was written last has these lines.
has() {
    for line; do
        grep -qx -- "$line" "$written" || fail "no line $line"
    done
}

# The status, the program, and the words after the names of its image and its scenario.
runs() {
    status=$1
    name=tests/rows/$2
    shift 2
    writes "$status" "$name.report" run "$name.img" "$name.txt" "$@"
}

# A command that isn't built yet is no command, and answers 2. Its words have to be such as it takes.
is_built() {
    "$program" "$@" >/dev/null
    [ $? -ne 2 ]
}

# A number as four bytes, the lowest first.
word() {
    for place in 0 8 16 24; do
        printf "\\$(printf '%03o' $(($1 >> place & 255)))"
    done
}

# An image file: its name, its entry, and one segment's address and words.
image() {
    name=$1
    entry=$2
    at=$3
    shift 3
    {
        printf CLC1
        for number in "$entry" 1 "$at" $((4 * $#)) "$@"; do word $((number)); done
    } >"$name"
}
