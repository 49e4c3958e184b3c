#!/bin/sh
# Files that were made to do harm, each with what it answers, worked out by hand: broken images, scenarios, sources,
# scripts and memory texts, files that can't be read, an output that can't be written, and stacks at RAM's edges.
# Rows of a command that isn't built yet are passed over.
script="hostile rows"
. "$(dirname "$0")/helpers.sh"
cp examples/first.img "$folder/i.img"
cp examples/first.report "$folder/first.report"
cd "$folder" || exit 1
: >s.txt
has_chain=
has_monitor=
has_gen=
is_built chain no.img no.txt looping 0 && has_chain=yes
is_built monitor no.img no.txt && has_monitor=yes
is_built gen 0 && has_gen=yes

# ---- images

# A refused image, in each command that takes one.
refuses_image() {
    printf "$2" >bad.img
    says 5 "refused image $1\n" run bad.img s.txt 10
    says 5 "refused image $1\n" run --trace bad.img no.txt 0
    says 5 "refused image $1\n" disasm bad.img
    says 5 "refused image $1\n" mem bad.img
    if [ "$has_chain" ]; then
        says 5 "refused image $1\n" chain bad.img s.txt looping 10
        says 5 "refused image $1\n" chain bad.img no.txt returning 0 --trace
    fi
    if [ "$has_monitor" ]; then says 5 "refused image $1\n" monitor bad.img no.txt; fi
}
refuses_image 'Truncated 0' ''
refuses_image 'Truncated 0' 'CLC'
refuses_image 'BadMagic 0' 'XXXX'
refuses_image 'Truncated 4' 'CLC1\0\0'
refuses_image 'Truncated 8' 'CLC1\0\0\0\0\101\0\0'
refuses_image 'TooMany 8' 'CLC1\0\0\0\0\101\0\0\0'
refuses_image 'TooMany 8' 'CLC1\0\0\0\0\377\377\377\377'
refuses_image 'Truncated 12' 'CLC1\0\0\0\0\001\0\0\0'
refuses_image 'Truncated 16' 'CLC1\0\0\0\0\001\0\0\0\0\0\0\0'
refuses_image 'OutsideMemory 12' 'CLC1\0\0\0\0\001\0\0\0\376\377\0\0\004\0\0\0'
refuses_image 'OutsideMemory 12' 'CLC1\0\0\0\0\001\0\0\0\377\377\377\377\002\0\0\0'
refuses_image 'OutsideMemory 12' 'CLC1\0\0\0\0\001\0\0\0\0\0\0\0\0\0\0\0'
refuses_image 'OutsideMemory 12' 'CLC1\0\0\0\0\001\0\0\0\0\0\0\0\377\377\377\377'
refuses_image 'OutsideMemory 12' 'CLC1\0\0\0\0\001\0\0\0\377\377\377\037\002\0\0\0'
refuses_image 'Overlap 21' 'CLC1\0\0\0\0\002\0\0\0\0\0\0\0\001\0\0\0\0\0\0\0\0\001\0\0\0\0'
refuses_image 'Overlap 21' 'CLC1\0\0\0\0\002\0\0\0\0\0\0\0\001\0\0\0\0\0\0\0\0\001\0\0\0'
refuses_image 'Truncated 20' 'CLC1\0\0\0\0\001\0\0\0\0\0\0\0\004\0\0\0\0\0'
refuses_image 'Trailing 12' 'CLC1\0\0\0\0\0\0\0\0\0'

# An entry at an odd place, and nothing in memory.
printf 'CLC1\003\0\0\0\0\0\0\0' >none.img
begins 1 'end budget\nsteps 0\npc 00000002\n' run none.img s.txt 0

# ---- scenarios

refuses_scenario() {
    printf "$2" >bad.txt
    says 5 "refused scenario $1\n" run i.img bad.txt 10
    if [ "$has_chain" ]; then
        says 5 "refused scenario $1\n" chain i.img bad.txt looping 10
        says 5 "refused scenario $1\n" chain i.img bad.txt returning 10
    fi
}
refuses_scenario 'BadLine 1' '1000000001 rx 0'
refuses_scenario 'BadLine 1' '0 rx 256'
refuses_scenario 'BadLine 1' '01 rx 1'
refuses_scenario 'BadLine 1' '4294967296 rx 1'
refuses_scenario 'BadLine 1' '18446744073709551616 rx 1'
refuses_scenario 'BadLine 1' '0 rx 1\r\n'
refuses_scenario 'BadLine 1' '0 rx\t1\n'
refuses_scenario 'BadLine 1' '0 rx 1 \n'
refuses_scenario 'BadLine 1' '0 rx \0\n'
refuses_scenario 'BadLine 2' '5 rx 1\n4 rx 256\n'
refuses_scenario 'OutOfOrder 2' '5 rx 1\n4 rx 255\n0 rx 256\n'
awk 'BEGIN { for (i = 0; i < 65536; i++) print "0 tick 1" }' >many.txt
writes 0 first.report run i.img many.txt 10
printf '0 tick 1\n' >>many.txt
says 5 'refused scenario TooMany 65537\n' run i.img many.txt 10

# ---- sources

# A refused source, and one whose image begins so. Line 1 is `.entry 0`.
refuses_source() {
    printf ".entry 0\n$2" >p.s
    says 5 "refused source $1\n" asm p.s
    says 5 "refused source $1\n" asm --symbols p.s
}
takes_source() {
    printf ".entry 0\n$1" >p.s
    begins 0 'CLC1\0\0\0\0' asm p.s
}
: >p.s
says 5 'refused source NoEntry 0\n' asm p.s
refuses_source 'DoubleLabel 3' 'a: nop\na: nop'
refuses_source 'UnknownLabel 2' 'j nowhere'
refuses_source 'OutOfReach 2' 'beq zero, zero, 0x1000'
takes_source 'beq zero, zero, 0xFFE'
refuses_source 'OutsideMemory 3' '.org 0x10000\nnop'
refuses_source 'Overlap 4' '.byte 1\n.org 0\n.byte 1'
refuses_source 'Lex 2' 'li a0, 0x100000000'
refuses_source 'Lex 2' 'li a0, 4294967296'
refuses_source 'Lex 2' 'li a0, 99999999999999999999999999999999'
refuses_source 'Lex 2' 'li a0, 0x'
refuses_source 'Lex 2' 'nop \0'
refuses_source 'BadOperands 2' '.zero 0'
refuses_source 'BadOperands 2' '.zero 65537'
refuses_source 'BadOperands 2' '.entry 4'
refuses_source 'OutsideMemory 3' '.org 0xFFFFFFFF\n.half 1'
refuses_source 'OutsideMemory 3' '.zero 65536\nnop'

# ---- memory texts

refuses_memory() {
    printf "$2" >p.mem
    says 5 "refused memory $1\n" unmem p.mem 0
}
refuses_memory 'OutsideMemory 9' '@FFFF 01 02'
refuses_memory 'OutsideMemory 10' '@FFFFFFFF 1 2'
refuses_memory 'BadByte 1' '1x'
refuses_memory 'Truncated 4' '/* a'

# ---- scripts of the monitor

refuses_script() {
    printf "$2" >bad.txt
    says 5 "refused script $1\n" monitor i.img bad.txt
}
if [ "$has_monitor" ]; then
    refuses_script 'BadLine 1' 'jump'
    refuses_script 'BadLine 1' 'step 0'
    refuses_script 'BadLine 1' 'step 1000001'
    refuses_script 'BadLine 1' 'step 007'
    refuses_script 'BadLine 1' 'step 0X10'
    refuses_script 'BadLine 1' 'step 0x100000000'
    refuses_script 'BadLine 1' 'step 0x000000001'
    refuses_script 'BadLine 1' 'mem 0 257'
    refuses_script 'BadLine 1' 'break 4294967296'
    refuses_script 'BadLine 1' 'line 16 1'
    refuses_script 'BadLine 1' 'clic 64'
    refuses_script 'BadLine 1' 'regs '
    refuses_script 'BadLine 2' 'regs\ncsr\r\n'
    awk 'BEGIN { for (i = 0; i < 4096; i++) print "back" }' >many.txt
    awk 'BEGIN { for (i = 0; i < 4096; i++) print "no earlier state" }' >many.said
    writes 0 many.said monitor i.img many.txt
    printf 'back\n' >>many.txt
    says 5 'refused script TooMany 4097\n' monitor i.img many.txt
    head -c 65536 /dev/zero | tr '\0' '\n' >many.txt
    says 0 '' monitor i.img many.txt
    printf '\n' >>many.txt
    says 5 'refused script TooLarge\n' monitor i.img many.txt
fi

# ---- files that can't be read, and an output that can't be written

mkdir folder
says 4 'shelf failed folder\n' run folder s.txt 10
says 4 'shelf failed folder\n' run i.img folder 10
says 4 'shelf failed folder\n' asm folder
says 4 'shelf failed folder\n' disasm folder
says 4 'shelf failed folder\n' mem folder
says 4 'shelf failed folder\n' unmem folder 0

# Status 6 where the device is full, and where there is no standard output.
cannot_write() {
    if [ -w /dev/full ]; then
        "$program" "$@" >/dev/full 2>"$folder/complaint"
        given=$?
        [ "$given" -eq 6 ] || fail "$*: status $given where the device is full"
        [ ! -s "$folder/complaint" ] || fail "$*: standard error isn't empty where the device is full"
    fi
    "$program" "$@" >&- 2>"$folder/complaint"
    given=$?
    [ "$given" -eq 6 ] || fail "$*: status $given without standard output"
    [ ! -s "$folder/complaint" ] || fail "$*: standard error isn't empty without standard output"
}
printf '.entry 0\nnop' >p.s
printf '1' >p.mem
cannot_write run i.img s.txt 10
cannot_write run --trace i.img s.txt 2
cannot_write asm p.s
cannot_write disasm i.img
cannot_write mem i.img
cannot_write unmem p.mem 0
cannot_write run no.img no.txt 10
cannot_write run folder s.txt 10
cannot_write fly
if [ "$has_chain" ]; then
    says 4 'shelf failed folder\n' chain folder s.txt looping 10
    says 4 'shelf failed folder\n' chain i.img folder looping 10
    cannot_write chain i.img s.txt looping 10
    cannot_write chain i.img s.txt returning 10 --trace
fi
if [ "$has_monitor" ]; then
    says 4 'shelf failed folder\n' monitor folder s.txt
    says 4 'shelf failed folder\n' monitor i.img folder
    printf 'step 1\n' >script.txt
    cannot_write monitor i.img script.txt
fi
if [ "$has_gen" ]; then cannot_write gen 0; fi

# ---- stacks at RAM's edges, in a chain

# The program of five inputs with some of its 27 instructions changed: the name of the image, and then number and
# instruction of each, parted by `=`.
changed() {
    name=$1
    shift
    cp "$top/tests/rows/interrupt.s" changed.s
    for change; do
        sed "$((13 + ${change%%=*}))s/.*/${change#*=}/" changed.s >changing.s
        mv changing.s changed.s
    done
    answers 0 asm changed.s
    mv "$written" "$name"
}

# Before the 26th instruction input 3 is due, and no frame can be made where mscratch says.
breaks_stack() {
    changed stack.img "$@" '25=csrw mscratch, sp'
    printf '25 line 3 1\n' >stack.txt
    for dispatcher in looping returning; do
        says 8 'end broken StackBad 25\nsteps 25\n' chain stack.img stack.txt "$dispatcher" 1000
        says 8 'end broken StackBad 25\nsteps 25\n' chain stack.img stack.txt "$dispatcher" 25
        says 1 'end budget\nsteps 24\n' chain stack.img stack.txt "$dispatcher" 24
    done
}

# The board before that is as it is without a chain.
changed stack.img '25=csrw mscratch, sp'
printf '25 line 3 1\n' >stack.txt
begins 1 'end budget\nsteps 25\npc 00000264\n' run stack.img stack.txt 25
has 'x2 20010000' 'mscratch 20010000'
if [ "$has_chain" ]; then
    breaks_stack '24=addi sp, sp, 4'
    breaks_stack '1=nop' '24=nop'
    breaks_stack '1=lui sp, 0x20000' '24=addi sp, sp, 34'
    breaks_stack '1=lui sp, 0x20000' '24=addi sp, sp, 16'
    breaks_stack '24=addi sp, sp, 1'
fi

cd "$top" || exit 1
missing=
[ "$has_chain" ] || missing="$missing chain"
[ "$has_monitor" ] || missing="$missing monitor"
[ "$has_gen" ] || missing="$missing gen"
echo "hostile rows: all as they should be${missing:+; not built yet:$missing}"
