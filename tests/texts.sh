#!/bin/sh
# Assembles and runs the examples, and small programs whose whole text was worked out by hand, and compares all that is
# written, and the status; then the words of commands, files that are refused, and sources. Where there is a GNU `as`
# for RISC-V, `asm` is compared with it.
script=texts
. "$(dirname "$0")/helpers.sh"

# ---- examples

writes 0 examples/first.img asm examples/first.s
writes 0 examples/first.report run examples/first.img examples/empty.txt 100
writes 0 examples/echo.img asm examples/echo.s
writes 0 examples/echo.report run examples/echo.img examples/echo.txt 1000
writes 0 examples/blink.img asm examples/blink.s
writes 0 examples/blink.report run examples/blink.img examples/blink.txt 1000 --trace

writes 0 examples/lost.img asm examples/lost.s
writes 0 examples/lost.said monitor examples/lost.img examples/lost.script
writes 0 examples/two.img asm examples/two.s
writes 0 examples/two.report chain examples/two.img examples/two.txt looping 1000
writes 0 examples/station.img asm examples/station.s
writes 0 examples/station.report chain examples/station.img examples/station.txt looping 1000
sed 's/^steps 167$/steps 190/' examples/station.report >"$folder/station.report"
writes 0 "$folder/station.report" chain examples/station.img examples/station.txt returning 1000
writes 0 examples/urgent.img asm examples/urgent.s
writes 0 examples/urgent.report chain examples/urgent.img examples/urgent.txt looping 1000 --direct
writes 0 examples/urgent.report chain examples/urgent.img examples/urgent.txt returning 1000 --direct
says 8 's 5 127 1\nend broken HardVectored 21\nsteps 35\n' chain examples/urgent.img examples/urgent.txt looping 1000

# A program by its words.
writes 0 tests/rows/interrupt.img asm tests/rows/interrupt.s

# The source of an image is assembled to the image.
for image in examples/*.img tests/rows/*.img; do
    "$program" disasm "$image" >"$folder/source.s" || fail "disasm $image"
    writes 0 "$image" asm "$folder/source.s"
done

# The memory text of an image gives the image again, with its entry.
for image in examples/*.img tests/rows/*.img; do
    answers 0 mem "$image"
    cp "$written" "$folder/image.mem"
    writes 0 "$image" unmem "$folder/image.mem" "$(od -An -tu4 -j4 -N4 "$image" | tr -d ' ')"
done

# ---- programs

runs 0 division 100
runs 0 compressed 100 --trace
runs 0 output 100
runs 0 exception 100 --trace
runs 1 nothing 1 --trace
runs 1 interrupt 24 --trace
runs 9 vector 100
runs 0 ram 100

# Scripts.
for name in breaks edge seventeen steps; do
    writes 0 "tests/rows/$name.said" monitor examples/first.img "tests/rows/$name.script"
done
writes 0 tests/rows/vector.said monitor tests/rows/vector.img tests/rows/vector.script

# An entry is traced, and where no event comes in time the program halts.
begins 1 'i 00000200 20010137\n' run tests/rows/interrupt.img tests/rows/interrupt.txt 25 --trace
has 'i 00000258 30046073' 'q 0000025C 3' 'x 00000040 2' 'steps 25'
for event in '' '27 line 3 1\n' '28 line 3 1\n'; do
    printf "$event" >"$folder/late.txt"
    begins 0 'end halt 00000000\nsteps 27\npc 0000026C\n' run tests/rows/interrupt.img "$folder/late.txt" 100
    has 'mintstatus 00000000'
done

cp examples/first.img "$folder/i.img"
cp examples/first.report "$folder/first.report"
cd "$folder" || exit 1
: >s.txt

# Bounds up to the halt.
begins 1 'end budget\nsteps 0\npc 00000000\n' run i.img s.txt 0
begins 1 'end budget\nsteps 2\npc 00000008\n' run i.img s.txt 2
begins 0 'end halt 00000005\nsteps 3\n' run i.img s.txt 3

# Entries at odd places: bit 0 is cleared. A half-word at the end of memory.
image odd.img 3 2 0x00500513
begins 1 'end budget\nsteps 1\npc 00000006\n' run odd.img s.txt 1
has 'x10 00000005'
printf 'CLC1\376\377\0\0\001\0\0\0\376\377\0\0\002\0\0\0\023\005' >end.img
begins 1 'end budget\nsteps 1\npc 00000000\n' run end.img s.txt 1
has 'mepc 0000FFFE' 'mcause 30000001' 'mtval 00010000'
printf 'CLC1\003\0\0\0\0\0\0\0' >none.img
begins 1 'end budget\nsteps 0\npc 00000002\n' run none.img s.txt 0

# A byte in the place of the dispatchers is accepted, and one behind it. A comment may have any bytes. In a chain that
# place is refused, after every refusal of the scenario; of two segments the least address in it counts.
printf '# \300\n' >comment.txt
for at in 277 300; do
    printf "CLC1\0\0\0\0\001\0\0\0\\$at\0\0\0\001\0\0\0\007" >byte.img
    begins 1 'end budget\n' run byte.img comment.txt 0
    [ "$at" = 300 ] || says 5 'refused image SlotTaken 000000BF\n' chain byte.img comment.txt looping 0
done
says 8 'end broken Exception 2 0\nsteps 0\n' chain byte.img comment.txt looping 0
printf 'CLC1\0\0\0\0\002\0\0\0\120\0\0\0\001\0\0\0\007\076\0\0\0\003\0\0\0\001\002\003' >slot.img
says 5 'refused image SlotTaken 00000040\n' chain slot.img comment.txt returning 10
says 3 'absent no.txt\n' chain slot.img no.txt returning 10
printf '5 rx 1\r\n' >bad.txt
says 5 'refused scenario BadLine 1\n' chain slot.img bad.txt returning 10

# ---- chains

# The end of a chain's text: pc, the registers, each 0 but for those given as `x2=20010000`.
registers() {
    printf 'pc %s\n' "$1"
    shift
    number=1
    while [ $number -le 31 ]; do
        value=00000000
        for register; do
            [ "${register%%=*}" = "x$number" ] && value=${register#*=}
        done
        printf 'x%s %s\n' $number "$value"
        number=$((number + 1))
    done
}

# Rows of dead bytes.
dead() {
    for row; do printf 'ram %s --------------------------------\n' "$row"; done
}

# The events and the services of the program of five inputs, its dead rows, how many bodies it makes, and for each
# dispatcher how many steps.
serves() {
    printf "$1" >serves.txt
    rows=$3
    for pair in "looping $5" "returning $6"; do
        {
            printf "$2"
            printf 'end halt 00000000\nsteps %s\nbodies %s\n' "${pair#* }" "$4"
            registers 0000026C x2=20010000 x5=10003000 x6=02001000
            printf 'mstatus 00001888\nout 0\n'
            dead $rows
        } >serves.text
        writes 0 serves.text chain five.img serves.txt "${pair% *}" 1000
    done
}

# The same chain at other bounds: the dispatcher, the bound, and the services.
reaches() {
    says 1 "$3end budget\nsteps $2\n" chain five.img serves.txt "$1" "$2"
}

cp "$top/tests/rows/interrupt.img" five.img
cp "$top/tests/rows/vector.img" vector.img
two='2000FFE0 2000FFF0'
four='2000FFC0 2000FFD0 2000FFE0 2000FFF0'
serves '23 line 3 1\n24 line 7 1\n' 's 3 127 1\ns 7 255 2\n' "$four" 29 89 89
serves '23 line 11 1\n24 line 7 1\n24 line 9 1\n' 's 11 191 1\ns 7 255 2\ns 9 63 1\n' "$four" 30 97 120
serves 'clic 64 1\n23 line 11 1\n24 line 7 1\n24 line 9 1\n' 's 11 255 1\ns 7 255 1\ns 9 127 1\n' "$two" 30 74 120
serves 'clic 64 2\n23 line 3 1\n23 line 5 1\n' 's 5 127 1\ns 3 127 1\n' "$two" 29 66 89
serves '23 line 3 1\n23 line 5 1\n' 's 5 127 1\ns 3 127 1\n' "$two" 29 66 89
reaches looping 65 's 5 127 1\ns 3 127 1\n'
reaches looping 45 's 5 127 1\ns 3 127 1\n'
reaches looping 44 's 5 127 1\n'
reaches returning 68 's 5 127 1\ns 3 127 1\n'
reaches returning 67 's 5 127 1\n'

# A trace has the lines of the dispatcher's steps, and a service's line after those of its Enter.
answers 0 chain five.img serves.txt looping 66 --trace
has 'q 0000025C 5' 'i 00000040 34911173' 'i 00000070 000580E7' 's 5 127 1' 'i 0000026C 00008067' 'i 00000084 FE0514E3'
[ "$(grep -c '^[icqx] ' "$written")" -eq 66 ] || fail 'a trace of another length'
[ "$(grep -B 1 '^s ' "$written" | grep -c '^i 00000070 ')" -eq 2 ] || fail 'a service at another place'

# The program with other words: what sed does to its source, the events, and the text under both dispatchers, which is
# whole where the convention is broken.
breaks() {
    sed "$1" "$top/tests/rows/interrupt.s" >broken.s
    printf "$2" >broken.txt
    "$program" asm broken.s >broken.img || fail "$1"
    for dispatcher in looping returning; do
        says 8 "$3" chain broken.img broken.txt "$dispatcher" 1000
    done
}
breaks '/^.org 0x10C/{n;s/.*/.word 0x270/}
$a lw t0, 12(sp)\nret' '23 line 3 1\n' 's 3 127 1\nend broken ReadsDispatch 23\nsteps 37\n'
stack='/0x20010137/s/.*/lui sp, 0x20000/
/0x00000013/{s/.*/addi sp, sp, SIZE/;n;s/.*/csrw mscratch, sp/}'
breaks "$(echo "$stack" | sed s/SIZE/16/)" '25 line 3 1\n' 'end broken StackBad 25\nsteps 25\n'
for dispatcher in looping returning; do
    says 8 'end broken HardVectored 23\nsteps 23\n' chain vector.img "$top/tests/rows/vector.txt" "$dispatcher" 100
done

# With direct services. The program of five inputs where 3 and 5 are hardware-vectored and their handler is MRET: what sed
# does to it besides, the events, the status, and what the text begins with under both dispatchers.
hard='/0x400202B7/s/.*/.word 0x400302B7/
/^.org 0x10C/{n;s/.*/.word 0x270/}
/^.org 0x114/{n;s/.*/.word 0x270/}'
serves_directly() {
    sed "$hard" "$top/tests/rows/interrupt.s" >hard.s
    printf "$1" >>hard.s
    answers 0 asm hard.s
    cp "$written" hard.img
    printf "$2" >hard.txt
    for dispatcher in looping returning; do
        begins "$3" "$4" chain hard.img hard.txt "$dispatcher" 1000 --direct
    done
}
serves_directly 'mret\n' '23 line 3 1\n' 0 'd 3 127 1\nend halt 00000000\nsteps 29\nbodies 28\n'
has 'mstatus 00001888' 'out 0'
[ "$(grep -c '^ram' "$written")" -eq 0 ] || fail 'a direct service has a frame'
for dispatcher in looping returning; do
    says 8 'end broken HardVectored 23\nsteps 23\n' chain hard.img hard.txt "$dispatcher" 1000
done
serves_directly 'mret\n' '23 line 11 1\n24 line 3 1\n' 0 's 11 191 1\nd 3 127 1\nend halt 00000000\nsteps 60\nbodies 29\n'
serves_directly 'addi t0, t0, 1\nmret\n' '23 line 3 1\n' 8 'd 3 127 1\nend broken RegisterLost 25\nsteps 26\n'

# Where no such input comes, nothing is different.
for dispatcher in looping returning; do
    answers 0 chain five.img serves.txt "$dispatcher" 1000
    cp "$written" soft.text
    writes 0 soft.text chain five.img serves.txt "$dispatcher" 1000 --direct
    answers 0 chain five.img serves.txt "$dispatcher" 1000 --trace
    cp "$written" soft.text
    writes 0 soft.text chain --direct five.img serves.txt "$dispatcher" --trace 1000
done
sed "$(echo "$stack" | sed s/SIZE/32/)" "$top/tests/rows/interrupt.s" >deep.s
answers 0 asm deep.s
cp "$written" deep.img
printf '25 line 3 1\n' >deep.txt
for dispatcher in looping returning; do
    answers 0 chain deep.img deep.txt "$dispatcher" 1000
    has 's 3 127 1' 'end halt 00000000' 'steps 58' 'x2 20000020' "$(dead 20000000)" "$(dead 20000010)"
done

# The example of two handlers under the other dispatcher, and with a handler that uses t0.
cp "$top/examples/two.img" "$top/examples/two.txt" .
sed s/86/109/ "$top/examples/two.report" >two.returning
writes 0 two.returning chain two.img two.txt returning 1000
awk '/^count:/ { lost = 1 } /^send:/ { lost = 0 } { if (lost) gsub("a0", "t0"); print }' "$top/examples/two.s" >lost.s
answers 0 asm lost.s
cp "$written" lost.img
for dispatcher in looping returning; do
    says 8 's 3 255 1\nend broken RegisterLost 25\nsteps 39\n' chain lost.img two.txt "$dispatcher" 1000
done

# 200 bytes received, with 20 ticks between them: 40 of the bytes come while a tick is served.
answers 0 asm "$top/tests/rows/received.s"
cp "$written" received.img
awk 'BEGIN {
    for (i = 0; i < 100; i++) printf "%d rx %d\n%d rx %d\n", 100 + 80 * i, 2 * i, 100 + 80 * i, 2 * i + 1
    for (j = 0; j < 20; j++) printf "%d tick 10\n", 258 + 400 * j
}' | sort -n -s >received.txt
{
    registers 0000027C x2=20010000 x5=10003000 x6=02001000 x8=10000000 x9=10002000 x18=20000000 x19=000000C8
    printf 'mstatus 00001880\nout 200\n'
    awk 'BEGIN { for (i = 0; i < 200; i++) printf "%s%02X%s", i % 32 ? "" : "o ", i, i % 32 == 31 || i == 199 ? "\n" : "" }'
    printf 'ram 20000000 C8000000140000000000000000000000\n'
    dead $four
} >received.text
for pair in 'looping 12343' 'returning 14643'; do
    answers 0 chain received.img received.txt "${pair% *}" 20000
    [ "$(grep -c '^s 16 255 1$' "$written")" -eq 160 ] || fail 'other services'
    [ "$(grep -c '^s 16 255 2$' "$written")" -eq 40 ] || fail 'other services'
    [ "$(grep -c '^s 18 127 1$' "$written")" -eq 20 ] || fail 'other services'
    [ "$(grep -c '^s ' "$written")" -eq 220 ] || fail 'other services'
    has 'end halt 00000000' "steps ${pair#* }" 'bodies 8043'
    sed '1,/^bodies/d' "$written" | cmp - received.text || fail 'another report'
done

# ---- made chains

# The events of `gen N`, as a scenario, by a reckoning of its own.
pulses() {
    awk -v n="$1" 'BEGIN {
        split("3 5 7 9 11", inputs)
        x = n
        for (e = 0; e < n; e++) {
            x = (1664525 * x + 1013904223) % 4294967296
            at = 30 + 8 * e + int(x / 16777216) % 8
            input = inputs[1 + int(x / 65536) % 5]
            printf "%d line %d 1\n%d line %d 0\n", at, input, at, input
        }
    }'
}

# Its line. Each pulse is a service of 31 steps, and 16 more go round the loop. Where a pulse comes with the only body of
# the service before, at no higher level, its handler is called at once, which costs the looping chain 23 steps less.
line_of() {
    pulses "$1" | awk -v n="$1" 'BEGIN { level[3] = level[5] = 127; level[7] = 255; level[9] = 63; level[11] = 191 }
        $4 == 1 {
            saved += NR > 1 && $1 == at + 1 && level[$3] <= level[input]
            at = $1
            input = $3
        }
        END { printf "gen %d services %d looping %d returning %d\n", n, n, 226 + 47 * n - 23 * saved, 226 + 47 * n }'
}

says 0 'gen 0 services 0 looping 226 returning 226\n' gen 0
says 0 'gen 1 services 1 looping 273 returning 273\n' gen 1
says 0 'gen 1000 services 1000 looping 47042 returning 47226\n' gen 1000
for n in 0 1 2 7 +100 0321 1000 9999 10000; do
    line_of "$n" >line.text
    writes 0 line.text gen "$n"
done

# A source of the same program, with the same events, makes the same chains.
{
    printf '.entry 0x200\n'
    for at in 10C 114 11C 124 12C; do printf '.org 0x%s\n.word last\n' $at; done
    printf '.org 0x1F0\n.word 900\n.org 0x200\n'
    sed -n '/0x20010137/,/0x02532623/p' "$top/tests/rows/interrupt.s"
    printf 'lw s3, 0x1F0(zero)\ncsrsi mstatus, 8\nround: addi s3, s3, -1\nbnez s3, round\n'
    printf 'lui t0, 0x10003\nsw zero, 0(t0)\nlast: ret\n'
} >made.s
answers 0 asm made.s
cp "$written" made.img
pulses 100 >made.txt
set -- $(line_of 100)
for pair in "looping $6" "returning $8"; do
    answers 0 chain made.img made.txt "${pair% *}" 1000000
    has 'end halt 00000000' "steps ${pair#* }"
    [ "$(grep -c '^s ' "$written")" -eq 100 ] || fail 'other services'
done

# ---- words

usage='usage: clic_tool asm | disasm | run | chain | monitor | gen | mem | unmem | lint | bound\n'
says 2 "$usage"
says 2 "$usage" fly
says 2 "$usage" fly i.img s.txt 5
says 2 "$usage" Run i.img s.txt 5
says 2 "$usage" --trace run i.img s.txt 5
says 2 "$usage" run
says 2 "$usage" run i.img
says 2 "$usage" run i.img s.txt
says 2 "$usage" run i.img 100
says 2 "$usage" run i.img s.txt 5 6
says 2 "$usage" run i.img s.txt 5 --fast
says 2 "$usage" run i.img s.txt 5 --trace=true
says 2 "$usage" run i.img s.txt 5 -t
says 2 "$usage" run i.img s.txt -- 5 --trace
says 2 "$usage" run --trace i.img s.txt 5 --trace
says 2 "$usage" run --help
says 2 "$usage" run -h
says 2 "$usage" run i.img s.txt 5 --help
says 2 "$usage" run i.img s.txt 5 -h
says 2 "$usage" chain i.img s.txt looping
says 2 "$usage" chain i.img s.txt 100
says 2 "$usage" chain no.img s.txt fast 100
says 2 "$usage" chain no.img s.txt Looping 100
says 2 "$usage" chain i.img s.txt looping 1000000001
says 2 "$usage" chain --trace i.img s.txt looping 5 --trace
says 2 "$usage" asm
says 2 "$usage" asm --symbols
says 2 "$usage" asm p.s q.s
says 2 "$usage" asm p.s --trace
says 2 "$usage" asm --symbols p.s --symbols
says 2 "$usage" assemble p.s
says 2 "$usage" disasm --symbols
says 2 "$usage" disassemble i.img
says 2 "$usage" monitor i.img
says 2 "$usage" monitor i.img s.txt 5
says 2 "$usage" gen
says 2 "$usage" gen 1 1
says 2 "$usage" gen 1 --trace
says 2 "$usage" generate 1
says 2 "$usage" mem
says 2 "$usage" mem i.img 0
says 2 "$usage" mem i.img --trace
says 2 "$usage" memory i.img
says 2 "$usage" unmem
says 2 "$usage" unmem i.mem
says 2 "$usage" unmem i.mem 0 0
says 2 "$usage" unmem 0 i.mem

# An entry is a number as clap reads it, and words are refused before a file is.
for entry in 4294967296 18446744073709551616 -1 -0 '' 5x 0x5 +; do
    says 2 "$usage" unmem no.mem "$entry"
done
says 2 "$usage" unmem -- no.mem -0

# So is the number of `gen`.
for n in 10001 18446744073709551616 -1 -0 '' 5x ' 5' 0x5 +; do
    says 2 "$usage" gen "$n"
done

# A bound is a number as clap reads it.
for bound in 1000000001 18446744073709551616 -1 -0 '' 5x ' 5' 0x5 +; do
    says 2 "$usage" run i.img s.txt "$bound"
done
says 2 "$usage" run -- i.img s.txt -0
for bound in 100 1000000000 +1000000000 +7 007; do
    writes 0 first.report run i.img s.txt "$bound"
done

# The flag may stand in each place before two dashes.
{
    printf 'i 00000000 00500513\ni 00000004 100032B7\ni 00000008 00A2A023\n'
    cat first.report
} >traced.report
writes 0 traced.report run --trace i.img s.txt 5
writes 0 traced.report run i.img --trace s.txt 5
writes 0 traced.report run i.img s.txt --trace 5
writes 0 traced.report run i.img s.txt 5 --trace
writes 0 traced.report run --trace -- i.img s.txt 5
writes 0 first.report run -- i.img s.txt 5

# Behind them a word is a name, whatever it begins with.
says 3 'absent --trace\n' run -- --trace - 5
cp i.img ./--trace
says 3 'absent -\n' run -- --trace - 5
says 3 'absent --symbols\n' asm -- --symbols
says 3 'absent -i.img\n' disasm -- -i.img
says 3 'absent \303\200 a\n' asm "$(printf '\303\200 a')"

# ---- files that are absent or refused

says 3 'absent no.txt\n' run i.img no.txt 10
says 3 'absent no.img\n' run no.img no.txt 10
says 3 'absent \n' run i.img '' 10
says 3 'absent p.s\n' asm p.s
says 3 'absent no.img\n' chain no.img no.txt looping 10
says 3 'absent no.txt\n' chain i.img no.txt looping 10
says 3 'absent no.img\n' disasm no.img
says 3 'absent no.img\n' monitor no.img no.script
says 3 'absent no.script\n' monitor i.img no.script
says 3 'absent no.img\n' mem no.img
says 3 'absent no.mem\n' unmem no.mem 4294967295
says 3 'absent --x\n' unmem -- --x 0

# The image's text and bytes. It is dealt with before the scenario is fetched.
refuses_image() {
    printf "$2" >bad.img
    says 5 "refused image $1\n" run bad.img no.txt 10
    says 5 "refused image $1\n" disasm bad.img
    says 5 "refused image $1\n" mem bad.img
}
refuses_image 'Truncated 0' ''
refuses_image 'BadMagic 0' XXXX
refuses_image 'Truncated 4' 'CLC1\0\0'
refuses_image 'TooMany 8' 'CLC1\0\0\0\0\101\0\0\0'
refuses_image 'Trailing 12' 'CLC1\0\0\0\0\0\0\0\0\0'
refuses_image 'OutsideMemory 12' 'CLC1\0\0\0\0\001\0\0\0\376\377\0\0\004\0\0\0'
refuses_image 'OutsideMemory 12' 'CLC1\0\0\0\0\001\0\0\0\0\0\0\0\0\0\0\0'
refuses_image 'Overlap 21' 'CLC1\0\0\0\0\002\0\0\0\0\0\0\0\001\0\0\0\0\0\0\0\0\001\0\0\0\0'
refuses_image 'Truncated 20' 'CLC1\0\0\0\0\001\0\0\0\0\0\0\0\004\0\0\0\0\0'

# An image of the limit, and one byte more.
head -c 262144 /dev/zero >bad.img
says 5 'refused image BadMagic 0\n' run bad.img s.txt 10
head -c 262145 /dev/zero >bad.img
says 5 'refused image TooLarge\n' run bad.img s.txt 10

refuses_scenario() {
    printf "$2" >bad.txt
    says 5 "refused scenario $1\n" run i.img bad.txt 10
}
refuses_scenario 'OutOfOrder 2' '5 line 3 1\n4 line 3 0\n'
refuses_scenario 'BadLine 1' '5 line 16 1'
refuses_scenario 'BadLine 4' '# start\n\n0 rx 65\n0 tick 0\n'
refuses_scenario 'BadLine 1' '5 rx 7\r\n'
refuses_scenario 'BadLine 1' '1000000001 rx 0\n'
for line in 'clic 23 8' 'clic 1025 8' 'clic 64 9' 'clic 064 8' 'clic 64' 'clic 64 8 ' '0 clic 64 8' 'clic +64 8'; do
    refuses_scenario 'BadLine 1' "$line"
done
refuses_scenario 'BadLine 2' '0 rx 1\nclic 64 8\n'
refuses_scenario 'BadLine 3' '# shape\nclic 64 8\nclic 64 8\n'
refuses_scenario 'BadLine 2' 'clic 24 8\n0 line 24 1\n'
refuses_scenario 'BadLine 1' '0 line 64 1\n'

# A scenario of empty lines is accepted up to the limit, and so are events.
head -c 4194304 /dev/zero | tr '\0' '\n' >long.txt
begins 0 'end halt 00000005\n' run i.img long.txt 10
printf '\n' >>long.txt
says 5 'refused scenario TooLarge\n' run i.img long.txt 10
awk 'BEGIN { for (i = 0; i < 65536; i++) print "0 rx 0" }' >many.txt
begins 0 'end halt 00000005\n' run i.img many.txt 10
printf '0 rx 0\n' >>many.txt
says 5 'refused scenario TooMany 65537\n' run i.img many.txt 10

# A script of empty lines is accepted up to the limit.
printf jump >bad.script
says 5 'refused script BadLine 1\n' monitor i.img bad.script
head -c 65536 /dev/zero | tr '\0' '\n' >long.script
says 0 '' monitor i.img long.script
printf '\n' >>long.script
says 5 'refused script TooLarge\n' monitor i.img long.script
awk 'BEGIN { for (i = 0; i < 4097; i++) print "back" }' >many.script
says 5 'refused script TooMany 4097\n' monitor i.img many.script

# ---- sources

# A source, its status and its text.
source_says() {
    printf "$3" >p.s
    says "$1" "$2" asm p.s
}
source_says 0 'CLC1\0\0\0\0\001\0\0\0\0\0\0\0\004\0\0\0\023\005\120\0' '.entry 0 # \300\naddi a0, zero, 5\n'
says 0 '' asm p.s --symbols
source_says 0 'CLC1\0\0\0\0\001\0\0\0\0\0\0\0\004\0\0\0\343\017\0\176' '.entry 0\nbeq zero, zero, 0xFFE\n'
printf '.entry b\n.org 0x20000010\nb: nop\n.org 0\na: nop\n_z9:' >p.s
says 0 '20000010 b\n00000000 a\n00000004 _z9\n' asm p.s --symbols
says 0 '20000010 b\n00000000 a\n00000004 _z9\n' asm --symbols p.s

# Line 1 is `.entry 0`, and line 2 or a later one is refused.
refuses_source() {
    source_says 5 "refused source $1\n" ".entry 0\n$2"
}
refuses_source 'UnknownMnemonic 2' 'adi a0, zero, 5'
refuses_source 'BadOperands 2' 'addi a0, zero, 2048'
refuses_source 'BadOperands 2' '.zero 0'
refuses_source 'BadOperands 2' '.entry 4'
refuses_source 'DoubleLabel 3' 'a: nop\na: nop'
refuses_source 'UnknownLabel 2' 'j nowhere'
refuses_source 'BadOperands 3' 'j nowhere\naddi a0'
refuses_source 'OutOfReach 2' 'beq zero, zero, 0x1000'
refuses_source 'OutsideMemory 3' '.org 0x10000\nnop'
refuses_source 'Overlap 4' '.byte 1\n.org 0\n.byte 1'
refuses_source 'Lex 2' 'li a0, 0x100000000'
refuses_source 'Lex 2' 'nop \300'
refuses_source 'Lex 2' 'nop\r\r\n'
refuses_source 'Lex 2' 'nop 1 2 3 4 5 6 7 8 9 1 2 3 4 5 6 7'

# No line names the entry: line 0.
source_says 5 'refused source NoEntry 0\n' ''
source_says 5 'refused source NoEntry 0\n' 'nop\n'
source_says 5 'refused source NoEntry 0\n' '# .entry 0'

# A 65th segment has its line; a source that is too long has none.
{
    printf '.entry 0\n'
    at=0
    while [ "$at" -lt 65 ]; do
        printf '.org 0x%08X\n.byte 1\n' $((at * 16))
        at=$((at + 1))
    done
} >p.s
says 5 'refused source TooLarge 131\n' asm p.s
head -c 2097152 /dev/zero | tr '\0' '#' >p.s
says 5 'refused source NoEntry 0\n' asm p.s
printf '#' >>p.s
says 5 'refused source TooLarge\n' asm p.s

# The labels of a program that counts 200 bytes, which a handler sends back, and the turns of the ticker, and then halts.
cat >p.s <<'SOURCE'
.entry start
.org 0x140
.word rx
.org 0x148
.word tk
.org 0x200
start: lui sp, 0x20010
li t0, 64
csrw mtvec, t0
li t0, 256
csrw mtvt, t0
lui t1, 0x2000
li t0, 2
sb t0, 0(t1)
lui t1, 0x2001
lui t0, 0xC0000
addi t0, t0, 256
sw t0, 64(t1)
lui t0, 0x40000
addi t0, t0, 256
sw t0, 72(t1)
lui s0, 0x10000
li t0, 1
sw t0, 8(s0)
lui s1, 0x10002
li t0, 10
sw t0, 4(s1)
li t0, 1
sw t0, 8(s1)
lui s2, 0x20000
li s3, 200
loop: csrsi mstatus, 8
csrci mstatus, 8
lw t0, 0(s2)
bne t0, s3, loop
lui t0, 0x10003
sw zero, 0(t0)
rx: lui a0, 0x10000
lw a1, 0(a0)
sw a1, 0(a0)
lui a0, 0x20000
lw a1, 0(a0)
addi a1, a1, 1
sw a1, 0(a0)
ret
tk: lui a0, 0x10002
sw zero, 12(a0)
lui a0, 0x20000
lw a1, 4(a0)
addi a1, a1, 1
sw a1, 4(a0)
nop
ret
SOURCE
says 0 '00000200 start\n00000264 loop\n0000027C rx\n0000029C tk\n' asm p.s --symbols

# ---- the shape of the interrupt controller

# The plain shape, named, changes nothing.
{ printf '# the plain one\nclic 64 8\n'; cat "$top/examples/blink.txt"; } >plain.txt
writes 0 "$top/examples/blink.report" run "$top/examples/blink.img" plain.txt 1000 --trace

# The control byte of input 3 is written as 0x40, and read; the board halts with what it reads.
cat >control.s <<'SOURCE'
.entry 0
lui t0, 0x02001
li t1, 0x40
sb t1, 15(t0)
lbu a0, 15(t0)
lui t2, 0x10003
sw a0, 0(t2)
SOURCE
answers 0 asm control.s
cp "$written" control.img
for row in '8 40' '3 5F' '1 7F' '0 FF'; do
    printf 'clic 64 %s\n' "${row% *}" >shape.txt
    begins 0 "end halt 000000${row#* }\n" run control.img shape.txt 10
done

# 24 inputs: the last byte of input 23 is there, and past it nothing is.
cat >last.s <<'SOURCE'
.entry 0
lui t0, 0x02001
lbu a0, 0x5F(t0)
lbu a0, 0x60(t0)
SOURCE
answers 0 asm last.s
cp "$written" last.img
printf 'clic 24 8\n' >shape.txt
begins 1 'i 00000000 020012B7\ni 00000004 05F2C503\nx 00000008 5\n' run last.img shape.txt 3 --trace
begins 1 'i 00000000 020012B7\ni 00000004 05F2C503\ni 00000008 0602C503\n' run last.img /dev/null 3 --trace

# ---- listings

says 0 '.entry 0x00000000\n.org 0x00000000\naddi a0, zero, 5\nlui t0, 0x10003\nsw a0, 0(t0)\n' disasm i.img

# ---- memory texts

says 0 '@00000000\n13 05 50 00 B7 32 00 10 23 A0 A2 00\n' mem i.img
cp "$written" i.mem
writes 0 i.img unmem i.mem 0
says 0 '' mem none.img

# Segments in their order, and sixteen bytes a line.
cat >p.s <<'SOURCE'
.entry 8
.org 0x2000FFFF
.byte 0xFF
.org 8
.zero 17
.byte 0xAB
SOURCE
answers 0 asm p.s
cp "$written" two.img
line='00 00 00 00 00 00 00 00 00 00 00 00 00 00 00 00'
says 0 "@2000FFFF\nFF\n@00000008\n$line\n00 AB\n" mem two.img

# A memory text, its entry, and its image.
makes_image() {
    printf "$1" >p.mem
    says 0 "$3" unmem p.mem "$2"
}
makes_image '' 0 'CLC1\0\0\0\0\0\0\0\0'
makes_image '@20000000 @100\t@5' 4294967295 'CLC1\377\377\377\377\0\0\0\0'
makes_image '1' +7 'CLC1\7\0\0\0\1\0\0\0\0\0\0\0\1\0\0\0\1'
makes_image '@10 // 1\r2\n3 /* 4 **/5/**/6_f_ //7' 007 'CLC1\7\0\0\0\1\0\0\0\20\0\0\0\3\0\0\0\3\5\157'
makes_image '@ffff 1\r\n@2_00_0FfFf_\f2' 1 'CLC1\1\0\0\0\2\0\0\0\377\377\0\0\1\0\0\0\1\377\377\0\40\1\0\0\0\2'
makes_image '@1 1 @2 @2 2' 0 'CLC1\0\0\0\0\2\0\0\0\1\0\0\0\1\0\0\0\1\2\0\0\0\1\0\0\0\2'

refuses_memory() {
    printf "$2" >p.mem
    says 5 "refused memory $1\n" unmem p.mem 0
}
refuses_memory 'OutsideMemory 9' '@FFFF 01 02'
refuses_memory 'OutsideMemory 10' '@20010000 1x'
refuses_memory 'OutsideMemory 10' '@1FFFFFFF 1'
refuses_memory 'BadByte 1' '1x'
refuses_memory 'BadByte 2' '123'
refuses_memory 'BadByte 1' '1@2'
refuses_memory 'BadByte 0' '_1'
refuses_memory 'BadByte 1' '@_1'
refuses_memory 'BadByte 9' '@123456789'
refuses_memory 'BadByte 1' '/1'
refuses_memory 'BadByte 0' '\0'
refuses_memory 'BadByte 2' '1 \v'
refuses_memory 'BadByte 0' 'z'
refuses_memory 'Truncated 4' '/* a'
refuses_memory 'Truncated 3' '/*/'
refuses_memory 'Truncated 3' '12/'
refuses_memory 'Truncated 1' '@'
refuses_memory 'Overlap 7' '1 2 @1 3'
refuses_memory 'Overlap 11' '@1 1 @0 2_ 3_'

# A 65th segment is refused before its place is looked at, and 64 are not.
awk 'BEGIN { for (i = 0; i < 64; i++) printf "@%04X 7\n", 2 * i }' >p.mem
answers 0 unmem p.mem 0
printf '@FFFFFFFF 1' >>p.mem
says 5 'refused memory TooMany 522\n' unmem p.mem 0

# A text of the limit, and one byte more.
head -c 1048576 /dev/zero | tr '\0' ' ' >p.mem
says 0 'CLC1\0\0\0\0\0\0\0\0' unmem p.mem 0
printf ' ' >>p.mem
says 5 'refused memory TooLarge\n' unmem p.mem 0

# What GNU objcopy 2.40 wrote for a program in C: examples/c/build.sh hello examples/c/hello.c
answers 0 unmem "$top/tests/rows/hello.mem" 0
cp "$written" hello.img
answers 0 run hello.img s.txt 10000
has 'end halt 00000000' 'out 14' 'o 48656C6C6F2066726F6D20432E0A'

# ---- verdicts on handlers

# The upper half of RAM, and all of it, as stack regions.
upper='536903680 536936448'
all='536870912 536936448'
says 0 'yes 0\n' lint received.img 636 $upper
says 0 'yes 0\n' lint received.img 668 $upper
says 11 'no RegionAccess 0000028C\n' lint received.img 636 $all
says 0 'yes 0\n' lint received.img 636 536936448 536870912

# What is told of a handler at 0x200: the status, the text, and its words.
judges() {
    image handler.img 0 0x200 $3
    says "$1" "$2" lint handler.img 512 $upper
}
judges 11 'no StackAccess 00000200\n' '0x00C12283 0x00008067'
# addi sp, sp, -16; sw s0, 0(sp); addi s0, zero, 1; lw s0, 0(sp); addi sp, sp, 16; ret, and then without the lw
saves='0xFF010113 0x00812023 0x00100413'
judges 11 'no RegisterChanged 00000210\n' "$saves 0x01010113 0x00008067"
judges 11 'no StackPointer 00000200\n' '0xFF110113 0x00008067'
judges 11 'no UnknownAddress 00000200\n' '0x00052503 0x00008067'
judges 11 'no UnknownTarget 00000200\n' '0x00050067'
judges 11 'no Backwards 00000200\n' '0x0000006F'
judges 11 'no System 00000200\n' '0x30046073'
judges 11 'no NotSpelled 00000200\n' '0xFFFFFFFF'
judges 0 'yes 16\n' "$saves 0x00012403 0x01010113 0x00008067"

# Bit 0 of the handler's number doesn't count, and a number is one as clap reads it.
says 0 'yes 16\n' lint handler.img 513 $upper
says 0 'yes 16\n' lint handler.img +0512 $upper
says 11 'no NotSpelled 0000FFFE\n' lint handler.img 65535 $upper
says 11 'no NotSpelled 00000000\n' lint handler.img 0 $upper

# A handler of 1,024 instructions and a return, and one less.
awk 'BEGIN { print ".entry 0\n.org 0x200"; for (i = 0; i < 1024; i++) print "nop"; print "ret" }' >long.s
answers 0 asm long.s
cp "$written" long.img
says 11 'no TooLong 00001200\n' lint long.img 512 $upper
says 0 'yes 0\n' lint long.img 516 $upper

# ---- bounds of the stack

says 0 'bound 64\n' bound received.img $upper 256 16:255,18:127
says 0 'bound 64\n' bound received.img $upper 319 18:127,16:255
says 0 'bound 32\n' bound received.img $upper 256 16:127,18:127
says 11 'no RegionAccess 0000028C\n' bound received.img $all 256 16:255,18:127
says 0 'bound 64\n' bound five.img $upper 256 3:127,5:127,7:255
says 0 'bound 96\n' bound five.img $upper 256 9:63,7:255,11:191
says 11 'no NotSpelled 00000000\n' bound five.img $upper 256 4:127
says 11 'no NotSpelled 00000000\n' bound five.img $upper 256 3:127,4:127,16:1
says 11 'no BadTable 00000040\n' bound five.img $upper 0 16:1
says 11 'no BadTable 000000BC\n' bound five.img $upper 64 31:1
says 11 'no NotSpelled 00000000\n' bound five.img $upper 64 32:1
says 11 'no BadTable 00010000\n' bound five.img $upper 65472 16:1
image table.img 0 0x100 0x20000001 0x00000103
says 11 'no CodeOutside 20000000\n' bound table.img $upper 256 0:1
says 11 'no NotSpelled 00000102\n' bound table.img $upper 256 1:1

# As many pairs as may be, and one more.
pairs() {
    awk -v count="$1" 'BEGIN { for (i = 0; i < count; i++) printf "%s3:%d", i ? "," : "", 1 + i % 255 }'
}
says 0 'bound 8160\n' bound five.img $upper 256 "$(pairs 1024)"

# The words of both are refused before a file is. Behind two dashes a word is a name, or pairs.
for word in '' , 3 3: :3 : 3:127, ,3:127 3:127,,5:127 3:0 3:00 3:256 1024:1 03:1 00:1 3:01 +3:1 3:+1 '3 :1' '3:1 ' 3:1:1 \
    '3:1;5:1' 3:1,5 3:1,5: -3:1 3:-1 0x3:1 3:4294967297 4294967299:1 "$(pairs 1025)"; do
    says 2 "$usage" bound no.img $upper 256 -- "$word"
done
for word in 0:1 1023:255 3:1,3:1,3:255 10:10,20:20; do
    says 3 'absent no.img\n' bound no.img $upper 256 "$word"
done
for number in 65536 18446744073709551616 -1 -0 '' 5x 0x5 +; do
    says 2 "$usage" lint no.img "$number" $upper
done
for number in 536870911 536936449 0 4294967296 -1 '' 0x20000000; do
    says 2 "$usage" lint no.img 0 "$number" 536936448
    says 2 "$usage" lint no.img 0 536870912 "$number"
    says 2 "$usage" bound no.img "$number" 536936448 256 3:1
    says 2 "$usage" bound no.img 536870912 "$number" 256 3:1
done
for number in 65473 -1 '' 0x100; do
    says 2 "$usage" bound no.img $upper "$number" 3:1
done
says 2 "$usage" lint
says 2 "$usage" lint i.img 0 536870912
says 2 "$usage" lint i.img 0 $upper 0
says 2 "$usage" lint i.img $upper 0
says 2 "$usage" lint i.img 0 $upper --trace
says 2 "$usage" bound
says 2 "$usage" bound i.img $upper 256
says 2 "$usage" bound i.img $upper 256 3:1 3:1
says 2 "$usage" bound i.img 256 $upper 3:1
says 2 "$usage" bounds i.img $upper 256 3:1
says 3 'absent no.img\n' lint no.img 0 $upper
says 3 'absent --x\n' lint -- --x 0 $upper
printf XXXX >bad.img
says 5 'refused image BadMagic 0\n' lint bad.img 0 $upper
says 5 'refused image BadMagic 0\n' bound bad.img $upper 256 3:1

cd "$top" || exit 1
echo "texts: each program writes what it is to write"
if command -v python3 >/dev/null; then python3 tests/gnu_as.py || exit 1; fi
