#!/bin/sh
# Runs the program on files of the system: an absent file, a folder, a name with a space, files that are
# refused, and outputs that take nothing. Compares its text, its status and what goes to standard error.
top=$(cd "$(dirname "$0")/.." && pwd)
command -v rt >/dev/null || { echo "real files: skipped, since there is no rt"; exit 0; }
folder=$(mktemp -d)
trap 'rm -rf "$folder"' EXIT
cd "$folder" || exit 1

mkdir folder.img
cp "$top/examples/first.img" first.img
cp "$top/examples/first.img" "a name.img"
: >empty.txt
printf '5 line 16 1\n' >bad.txt
printf 'XXXX' >bad.img
head -c 262145 /dev/zero >large.img
printf '.entry b\n.org 8\nb: nop # \300\n.org 0\na: nop\n' >two.s
printf '.entry 0\nadi a0, zero, 5\n' >bad.s
head -c 2097153 /dev/zero >large.s
"$top/clic_tool" >usage.txt 2>/dev/null

fail() {
    echo "real files: $1" >&2
    exit 1
}

# The status, the text, and the words of the command.
answers() {
    status=$1
    text=$2
    shift 2
    "$top/clic_tool" "$@" >out 2>err
    given=$?
    [ "$given" -eq "$status" ] || fail "$*: status $given in place of $status"
    printf '%b' "$text" | cmp - out || fail "$*: another text"
    [ -s err ] && fail "$*: something went to standard error"
}

answers 3 'absent no.img\n' run no.img empty.txt 10
answers 3 'absent no.txt\n' run first.img no.txt 10
answers 4 'shelf failed folder.img\n' run folder.img empty.txt 10
answers 4 'shelf failed folder.img\n' run first.img folder.img 10
answers 5 'refused image BadMagic 0\n' run bad.img no.txt 10
answers 5 'refused scenario BadLine 1\n' run first.img bad.txt 10
answers 5 'refused image TooLarge\n' run large.img empty.txt 10
answers 2 'usage: clic_tool asm | disasm | run | chain | monitor | gen | mem | unmem | lint | bound\n' run first.img empty.txt

answers 0 '00000008 b\n00000000 a\n' asm two.s --symbols
answers 0 'CLC1\0010\0\0\0\002\0\0\0\0010\0\0\0\004\0\0\0\023\0\0\0\0\0\0\0\004\0\0\0\023\0\0\0' asm two.s
answers 3 'absent no.s\n' asm no.s
answers 4 'shelf failed folder.img\n' asm folder.img
answers 5 'refused source UnknownMnemonic 2\n' asm bad.s
answers 5 'refused source TooLarge\n' asm large.s
answers 2 'usage: clic_tool asm | disasm | run | chain | monitor | gen | mem | unmem | lint | bound\n' asm two.s --trace
answers 3 'absent no.img\n' disasm no.img
answers 5 'refused image BadMagic 0\n' disasm bad.img
answers 4 'shelf failed folder.img\n' mem folder.img
answers 4 'shelf failed folder.img\n' unmem folder.img 0
answers 5 'refused memory BadByte 0\n' unmem bad.img 0
answers 5 'refused memory TooLarge\n' unmem large.s 0
answers 4 'shelf failed folder.img\n' lint folder.img 0 536870912 536936448
answers 4 'shelf failed folder.img\n' bound folder.img 536870912 536936448 0 3:1
answers 11 'no NotSpelled 0000000C\n' lint first.img 0 536870912 536936448
answers 11 'no BadTable 00000040\n' bound first.img 536870912 536936448 0 16:1

# A name with a space.
"$top/clic_tool" run "a name.img" empty.txt 100 >out 2>err || fail "a name with a space: status $?"
cmp out "$top/examples/first.report" || fail "a name with a space: another text"

# Two files whose names differ by a blank at the end.
cp bad.img "first.img "
"$top/clic_tool" run first.img empty.txt 100 >out 2>err || fail "the name without a blank: status $?"
cmp out "$top/examples/first.report" || fail "the name without a blank: another text"
answers 5 'refused image BadMagic 0\n' run "first.img " empty.txt 100

# A stack of 64 KiB does for each command. Where there is no room for the board, the answer is 7, and no signal.
program=$top/crates/clic_tool/out/clic_tool
cp "$top/examples/two.img" "$top/examples/two.txt" "$top/examples/lost.img" "$top/examples/lost.script" .
"$program" mem first.img >first.mem
for words in 'run first.img empty.txt 100 --trace' 'chain two.img two.txt looping 1000' \
    'chain two.img two.txt returning 1000 --trace --direct' 'gen 100' 'monitor lost.img lost.script' 'asm two.s' \
    'disasm two.img' 'mem two.img' 'unmem first.mem 0' 'lint two.img 596 536903680 536936448' \
    'bound two.img 536903680 536936448 256 3:255,5:127'; do
    "$program" $words >wide 2>&1
    (ulimit -s 64 && "$program" $words) >narrow 2>&1 || fail "$words: status $? with a stack of 64 KiB"
    cmp wide narrow || fail "$words: another text with a stack of 64 KiB"
done
(ulimit -v 3500 && "$program" run first.img empty.txt 100) >out 2>err
[ $? -eq 7 ] || fail "no room for the board: not status 7"
[ -s out ] && fail "no room for the board: something was written"

# An output that is full, one that is closed, and one that can't be written.
"$top/clic_tool" run first.img empty.txt 100 >/dev/full 2>err
[ $? -eq 6 ] || fail "a full output: not status 6"
"$top/clic_tool" run first.img empty.txt 100 >&- 2>err
[ $? -eq 6 ] || fail "a closed output: not status 6"
[ -s err ] && fail "a failed output: something went to standard error"
echo "real files: as the docs say"
