#!/bin/sh
# Rows on the second program: images and names of an ELF file that are stored, the words of commands, files that are
# refused, traces, of which clic_tool writes what isn't added, and sweeps, whose lines are made here from its chains, one
# for each count. Refusals of ELF files and of names, each once, are in elf_rows.py, which runs at the end.
script=lab_rows
tool=clic_lab
command -v rt >/dev/null || {
    echo "$script: there is no rt" >&2
    exit 1
}
. "$(dirname "$0")/helpers.sh"
./clic_tool >/dev/null
chains=$top/crates/clic_tool/out/clic_tool
usage='usage: clic_lab elf | names | trace | sweep\n'

# ---- images and names

writes 0 tests/rows/serial.img elf tests/rows/serial.elf
writes 0 tests/rows/serial.names names tests/rows/serial.elf
writes 0 tests/rows/serial.code.names names tests/rows/serial.elf --code
writes 0 tests/rows/serial.code.names names --code -- tests/rows/serial.elf

# ---- sweeps

cp examples/two.img examples/two.txt "$folder/"
cp examples/urgent.img examples/urgent.txt "$folder/"
cp tests/rows/serial.elf "$folder/"
cd "$folder" || exit 1

# The outcome of a chain, from what clic_tool writes of it: its words after the image and the scenario.
outcome() {
    "$chains" chain "$@" | awk '
        /^[sd] / { words = words " " ($1 == "d" ? "d" : "") $2 ":" $3 ":" $4; next }
        /^end broken / { sub(/ [0-9]+$/, "") }
        { print $0 words; exit }'
}

# The lines of a sweep: an image, a scenario's first event and its other one, each without its count, the other one's
# count, a dispatcher, the bound, the counts, and an option of the chain.
swept() {
    for count in $(seq "$7" "$8"); do
        # An event at the count of another comes behind it.
        if [ "$count" -lt "$4" ]; then
            printf '%s %s\n%s %s\n' "$count" "$2" "$4" "$3"
        else
            printf '%s %s\n%s %s\n' "$4" "$3" "$count" "$2"
        fi >moved.txt
        echo "$count $(outcome "$1" moved.txt "$5" "$6" $9)"
    done | awk '
        { count = $1; sub(/^[0-9]+ /, "") }
        !($0 in counts) { first[$0] = count; order[++known] = $0 }
        { ++counts[$0] }
        END { for (k = 1; k <= known; ++k) print counts[order[k]], first[order[k]], order[k] }'
}

# The status, the event that is moved, how many events there are, and what swept takes.
sweeps() {
    status=$1
    event=$2
    shift 2
    swept "$@" >swept.text
    if [ "$event" -eq 1 ]; then
        printf '%s %s\n%s %s\n' "$4" "$2" "$4" "$3" >both.txt
    else
        printf '%s %s\n%s %s\n' "$4" "$3" "$4" "$2" >both.txt
    fi
    writes "$status" swept.text sweep "$1" both.txt "$5" "$6" "$event" "$7" "$8" $9
}

sweeps 0 1 two.img 'line 3 1' 'line 5 1' 20 looping 1000 0 60
sweeps 0 2 two.img 'line 5 1' 'line 3 1' 20 returning 1000 0 60

# FROM and TO are both taken: of these two counts each has an outcome of its own.
sweeps 0 1 two.img 'line 3 1' 'line 5 1' 20 looping 1000 25 26
[ "$(wc -l <swept.text)" -eq 2 ] || fail 'both counts have one outcome'
sweeps 0 1 two.img 'line 3 1' 'line 5 1' 20 looping 1000 26 26

# A chain at its bound, a chain that is broken, and the same with direct services.
sweeps 1 1 two.img 'line 3 1' 'line 5 1' 20 looping 100 0 60
sweeps 8 2 urgent.img 'line 3 1' 'line 5 1' 20 looping 1000 10 40
sweeps 8 2 urgent.img 'line 3 1' 'line 5 1' 20 looping 80 10 40
sweeps 0 2 urgent.img 'line 3 1' 'line 5 1' 20 looping 1000 10 40 --direct

# Parts: each count is in one.
answers 0 sweep two.img two.txt looping 1000 1 0 60
awk '{ counts = $1; $1 = $2 = ""; print $0, counts }' "$written" | sort >whole.text
for part in 0 1 2; do
    answers 0 sweep two.img two.txt looping 1000 1 0 60 --part $part/3
    cat "$written"
done | awk '{ counts = $1; $1 = $2 = ""; all[$0] += counts } END { for (o in all) print o, all[o] }' | sort >parts.text
cmp whole.text parts.text || fail 'parts give other counts'
says 0 '' sweep two.img two.txt looping 1000 1 25 26 --part 0/1000

# ---- traces

# Without its additions a trace is what clic_tool writes: the status, the image, the scenario, the bound, and of a chain
# the dispatcher and `--direct`.
traces() {
    status=$1
    image=$2
    scenario=$3
    bound=$4
    dispatcher=$5
    if [ -z "$dispatcher" ]; then
        "$chains" run "$image" "$scenario" "$bound" --trace >"$wanted"
        answers "$status" trace "$image" "$scenario" "$bound" --names serial.names
    else
        "$chains" chain "$image" "$scenario" "$dispatcher" "$bound" --trace $6 >"$wanted"
        answers "$status" trace "$image" "$scenario" "$bound" --dispatcher "$dispatcher" --names serial.names $6
    fi
    cut -f1 "$written" | cmp - "$wanted" || fail "trace $*: another text is left"
    grep -q "$(printf '\t')" "$written" || fail "trace $*: nothing is added"
}

cp "$top/examples/blink.img" "$top/examples/blink.txt" .
cp "$top/tests/rows/serial.names" "$top/tests/rows/vector.img" "$top/tests/rows/vector.txt" .
traces 0 blink.img blink.txt 1000
traces 1 blink.img blink.txt 5
traces 9 vector.img vector.txt 100
traces 0 two.img two.txt 1000 looping
traces 0 two.img two.txt 1000 returning
traces 1 two.img two.txt 40 looping
traces 8 urgent.img urgent.txt 1000 looping
traces 0 urgent.img urgent.txt 1000 returning --direct

# Three instructions, as first.s has them, with two names, and without.
printf '00000000 start\n00000008 stop\n' >first.names
{
    printf 'i 00000000 00500513\t<start>\taddi a0, zero, 5\n'
    printf 'i 00000004 100032B7\t<start+4>\tlui t0, 0x10003\n'
    printf 'i 00000008 00A2A023\t<stop>\tsw a0, 0(t0)\n'
    cat "$top/examples/first.report"
} >first.text
writes 0 first.text trace "$top/examples/first.img" "$top/examples/empty.txt" 100 --names first.names
sed 's/\t<[^>]*>//' first.text >unnamed.text
writes 0 unnamed.text trace "$top/examples/first.img" "$top/examples/empty.txt" 100

# A service's line has its handler's name: of input 3, and of input 5.
named_services() {
    "$chains" asm "$top/examples/$1.s" --symbols >services.names
    sed -n "s/^[sd] 3 .*/&\t<$2>/p; s/^[sd] 5 .*/&\t<$3>/p" "$top/examples/$1.report" >services.text
    answers 0 trace "$1.img" "$1.txt" 1000 --dispatcher looping --names services.names $4
    grep '^[sd] ' "$written" | cmp - services.text || fail "trace $1: other names of services"
}
named_services two count send
named_services urgent urgent send --direct

# ---- files

says 3 'absent no.elf\n' elf no.elf
says 3 'absent no.elf\n' names no.elf --code
says 3 'absent no.img\n' sweep no.img no.txt looping 10 1 0 1
says 3 'absent no.txt\n' sweep two.img no.txt looping 10 1 0 1
head -c 16777217 /dev/zero >long.elf
says 5 'refused elf TooLarge\n' elf long.elf
says 5 'refused elf TooLarge\n' names long.elf
head -c 16777216 long.elf >most.elf
says 5 'refused elf BadMagic 0\n' elf most.elf
says 5 'refused image BadMagic 0\n' sweep serial.elf two.txt looping 10 1 0 1

# The scenario's refusals come before the slot's, and an event that isn't there is one of them.
printf 'CLC1\0\0\0\0\001\0\0\0\277\0\0\0\001\0\0\0\007' >slot.img
printf '5 rx 1\r\n' >bad.txt
: >none.txt
says 5 'refused scenario BadLine 1\n' sweep slot.img bad.txt looping 10 1 0 1
says 5 'refused scenario NoEvent 0\n' sweep slot.img none.txt looping 10 1 0 1
says 5 'refused scenario NoEvent 2\n' sweep slot.img two.txt looping 10 3 0 1
says 5 'refused scenario NoEvent 2\n' sweep two.img two.txt looping 10 65536 0 1
says 5 'refused image SlotTaken 000000BF\n' sweep slot.img two.txt looping 10 2 0 1

# The names are the last file, and the slot has to be free under a dispatcher alone.
printf '00000000\n' >bad.names
says 3 'absent no.img\n' trace no.img no.txt 10 --names no.names
says 3 'absent no.txt\n' trace two.img no.txt 10 --names no.names
says 3 'absent no.names\n' trace two.img two.txt 10 --names no.names
says 5 'refused scenario BadLine 1\n' trace slot.img bad.txt 10 --dispatcher looping --names no.names
says 5 'refused image SlotTaken 000000BF\n' trace slot.img two.txt 10 --dispatcher looping --names no.names
says 5 'refused names BadLine 1\n' trace slot.img two.txt 10 --names bad.names
says 5 'refused names BadLine 1\n' trace two.img two.txt 10 --dispatcher looping --names bad.names

# ---- words

misuses() { says 2 "$usage" "$@"; }
misuses
misuses no
misuses --help
misuses elf
misuses elf a b
misuses elf a --code
misuses names
misuses names a b
misuses names a --code --code
misuses names a --code=1
misuses trace two.img two.txt
misuses trace two.img two.txt 10 looping
misuses trace two.img two.txt 1000000001
misuses trace two.img two.txt 10 --direct
misuses trace two.img two.txt 10 --dispatcher neither
misuses trace two.img two.txt 10 --names a --names b
misuses trace two.img two.txt 10 --trace
misuses sweep two.img two.txt looping 10 1 0
misuses sweep two.img two.txt looping 10 1 0 1 2
misuses sweep two.img two.txt neither 10 1 0 1
misuses sweep two.img two.txt looping 1000000001 1 0 1
misuses sweep two.img two.txt looping 10 0 0 1
misuses sweep two.img two.txt looping 10 65537 0 1
misuses sweep two.img two.txt looping 10 1 2 1
misuses sweep two.img two.txt looping 10 1 0 1000000001
misuses sweep two.img two.txt looping 10 1 -1 1
for part in '' 1/1 0/0 0/1000001 a/2 0/2/3; do
    misuses sweep two.img two.txt looping 10 1 0 1 --part "$part"
done

if command -v python3 >/dev/null; then
    cd "$top" && python3 tests/elf_rows.py "$program" || exit 1
fi
