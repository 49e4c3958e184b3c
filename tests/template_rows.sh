#!/bin/sh
# Rows on the program over a board of one's own: its examples, whose texts were worked out by hand from the register
# tables, examples of clic_tool whose programs use the serial port alone, each end of a run and of a chain, files that are
# refused, and words.
script=template_rows
tool=template_tool
. "$(dirname "$0")/helpers.sh"
usage='usage: template_tool run | looping | returning IMAGE SCENARIO BOUND\n'
cp examples/template/feed.* examples/template/send.* examples/two.* tests/rows/vector.* "$folder/"
cd "$folder" || exit 1

# ---- runs and chains

# No handler begins straight after another, so both dispatchers take 240 steps.
writes 0 feed.report looping feed.img feed.txt 240
writes 0 feed.report returning feed.img feed.txt 1000
writes 0 send.report run send.img send.txt 48

# A word 0 that is stored at 0x10003000 is no food for the Watchdog, which halts with code 1 where the Halter would with 0.
sed 's/^end halt 00000000$/end halt 00000001/' two.report >fed.report
writes 0 fed.report looping two.img two.txt 1000
sed 's/^steps 86$/steps 109/' fed.report >back.report
writes 0 back.report returning two.img two.txt 1000

# One step less is a bound, and a vector may not be in memory.
says 1 's 17 255 1\ns 17 255 1\ns 17 255 1\ns 17 255 1\nend budget\nsteps 239\n' looping feed.img feed.txt 239
begins 1 'end budget\nsteps 47\npc 00000060\n' run send.img send.txt 47
writes 9 vector.report run vector.img vector.txt 100

# Before the alarm nothing is served, and pins and bytes that come are nothing to the Alarm and the Watchdog.
printf '20 tick 3\n30 pins 7\n40 rx 65\n' >early.txt
says 1 'end budget\nsteps 100\n' looping feed.img early.txt 100

# The Watchdog halts the board while the handler runs: 33 bodies, and 14 steps for the Enter.
printf '20 tick 3\n30 tick 1\n33 tick 6\n' >starved.txt
says 8 's 17 255 1\nend broken HaltInHandler 33\nsteps 47\n' looping feed.img starved.txt 1000
says 8 's 17 255 1\nend broken HaltInHandler 33\nsteps 47\n' returning feed.img starved.txt 1000

# ---- files

says 3 'absent no.img\n' run no.img no.txt 10
says 3 'absent no.txt\n' looping feed.img no.txt 10
head -c 262145 /dev/zero >long.img
head -c 4194305 /dev/zero >long.txt
says 5 'refused image TooLarge\n' run long.img no.txt 10
says 5 'refused scenario TooLarge\n' returning feed.img long.txt 10
says 5 'refused image BadMagic 0\n' run feed.txt no.txt 10
printf '5 rx 1\n4 rx 1\n' >bad.txt
says 5 'refused scenario OutOfOrder 2\n' run feed.img bad.txt 10

# The dispatcher's place has to be free under a dispatcher alone, and the scenario is refused before.
printf 'CLC1\0\0\0\0\001\0\0\0\277\0\0\0\001\0\0\0\007' >slot.img
says 5 'refused image SlotTaken 000000BF\n' looping slot.img feed.txt 10
says 5 'refused image SlotTaken 000000BF\n' returning slot.img feed.txt 10
says 5 'refused scenario OutOfOrder 2\n' looping slot.img bad.txt 10
begins 1 'end budget\nsteps 0\n' run slot.img feed.txt 0

if [ -w /dev/full ]; then
    "$program" run send.img send.txt 1000 >/dev/full
    [ $? -eq 6 ] || fail 'an output that takes nothing'
fi

# ---- words

misuses() { says 2 "$usage" "$@"; }
misuses
misuses --help
misuses run
misuses run send.img send.txt
misuses run send.img send.txt 10 11
misuses run send.img send.txt 1000000001
misuses run send.img send.txt ten
misuses run send.img send.txt 10 --trace
misuses chain feed.img feed.txt 10
misuses Looping feed.img feed.txt 10
misuses '' feed.img feed.txt 10
