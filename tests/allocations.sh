#!/bin/sh
# Refuses one request for memory of the built program after the other: the first alone, then the second alone, and so on.
# Each time the program writes what it writes with all memory, with the same status, or ends with status 7. With status 7
# nothing is written; in the monitor what is written is a front of the text.
#
# It is run by hand, and isn't part of the gate. It needs a C compiler, for the library that refuses.
script=allocations
. "$(dirname "$0")/helpers.sh"
command -v cc >/dev/null || { echo "$script: skipped, since there is no cc"; exit 0; }

# The library stands before malloc and realloc. It refuses the request with the number REFUSED, counted from 1, and
# writes at the end how many requests there were into the file COUNTED.
cat >"$folder/refusing.c" <<'C'
#define _GNU_SOURCE
#include <dlfcn.h>
#include <errno.h>
#include <stdio.h>
#include <stdlib.h>

static long requests;

static int is_refused(void) {
    const char *number = getenv("REFUSED");
    requests++;
    return number && atol(number) == requests;
}

void *malloc(size_t size) {
    static void *(*next)(size_t);
    if (!next) next = (void *(*)(size_t))dlsym(RTLD_NEXT, "malloc");
    if (is_refused()) { errno = ENOMEM; return NULL; }
    return next(size);
}

void *realloc(void *block, size_t size) {
    static void *(*next)(void *, size_t);
    if (!next) next = (void *(*)(void *, size_t))dlsym(RTLD_NEXT, "realloc");
    if (is_refused()) { errno = ENOMEM; return NULL; }
    return next(block, size);
}

__attribute__((destructor)) static void count(void) {
    const char *name = getenv("COUNTED");
    long made = requests;
    FILE *file = name ? fopen(name, "w") : NULL;
    if (file) { fprintf(file, "%ld\n", made); fclose(file); }
}
C
cc -shared -fPIC -O1 -o "$folder/refusing.so" "$folder/refusing.c" -ldl || fail "the library isn't built"
cp examples/first.img "$folder/i.img"
cd "$folder" || exit 1
: >s.txt

# The row's name, its status, and the words: what they write with all memory, and how many requests they make.
row() {
    name=$1
    status=$2
    shift 2
    answers "$status" "$@"
    cp "$written" whole
    LD_PRELOAD=$folder/refusing.so COUNTED=$folder/counted "$program" "$@" >"$written"
    [ $? -eq "$status" ] || fail "$name: another status under the library"
    cmp "$written" whole || fail "$name: another text under the library"
    requests=$(cat counted)
    [ "$requests" -gt 0 ] || fail "$name: no request was counted"
    refused=1
    sevens=0
    while [ "$refused" -le "$requests" ]; do
        REFUSED=$refused LD_PRELOAD=$folder/refusing.so "$program" "$@" >"$written" 2>complaint
        given=$?
        [ ! -s complaint ] || fail "$name: request $refused: standard error isn't empty"
        if [ "$given" -eq 7 ]; then
            sevens=$((sevens + 1))
            if [ "$1" = monitor ]; then
                head -c "$(wc -c <"$written")" whole | cmp - "$written" || fail "$name: request $refused: no front of the text"
            else
                [ ! -s "$written" ] || fail "$name: request $refused: status 7, and something is written"
            fi
        else
            [ "$given" -eq "$status" ] || fail "$name: request $refused: status $given"
            cmp "$written" whole || fail "$name: request $refused: another text"
        fi
        refused=$((refused + 1))
    done
    [ "$sevens" -gt 0 ] || fail "$name: no refusal had status 7"
    echo "allocations: $name: $requests requests, of which $sevens are needed"
}

# ---- a run, a source, an image and a memory text

row 'three instructions' 0 run i.img s.txt 100
row 'three instructions, traced' 0 run i.img s.txt 100 --trace
row 'an interrupt' 0 run "$top/examples/blink.img" "$top/examples/blink.txt" 1000 --trace
row 'a bound' 1 run i.img s.txt 2
row 'a vector outside memory' 9 run "$top/tests/rows/vector.img" "$top/tests/rows/vector.txt" 100
printf 'clic 1024 3\n0 line 1023 1\n' >shape.txt
row 'another shape' 0 run i.img shape.txt 100
printf '.entry 0\naddi a0, zero, 5' >p.s
row 'a source' 0 asm p.s
printf '.entry 0\nadi a0, zero, 5' >bad.s
row 'a source with a wrong mnemonic' 5 asm bad.s
printf '.entry 0\naddi a0, zero, 2048' >bad.s
row 'a source with a wrong number' 5 asm bad.s
row 'labels' 0 asm "$top/tests/rows/received.s" --symbols
answers 0 asm "$top/tests/rows/received.s"
cp "$written" received.img
row 'a larger source' 0 asm "$top/tests/rows/received.s"
row 'a listing' 0 disasm received.img
row 'a memory text' 0 mem received.img
cp whole received.mem
row 'an image of a memory text' 0 unmem received.mem 512
printf '@FFFF 01 02' >bad.mem
row 'a refused memory text' 5 unmem bad.mem 0
row 'a verdict' 0 lint received.img 636 536903680 536936448
row 'a refused handler' 11 lint received.img 0 536903680 536936448
row 'a bound of the stack' 0 bound received.img 536903680 536936448 256 16:255,18:127
row 'a refused table' 11 bound received.img 536903680 536936448 0 16:255
printf '5 line 3 1\n4 line 3 0\n' >bad.txt
row 'a refused scenario' 5 run i.img bad.txt 10
row 'an absent file' 3 run i.img no.txt 10
row 'no command' 2 fly

# ---- chains

passed=
if is_built chain no.img no.txt looping 0; then
    printf '23 line 3 1\n23 line 5 1\n' >two.txt
    {
        awk 'BEGIN { for (i = 0; i < 100; i++) for (k = 0; k < 2; k++) print 100 + 80 * i, "rx", 2 * i + k }'
        awk 'BEGIN { for (i = 0; i < 20; i++) print 258 + 400 * i, "tick 10" }'
    } | sort -s -n -k 1,1 >received.txt
    for dispatcher in looping returning; do
        row "two services, $dispatcher" 0 chain "$top/tests/rows/interrupt.img" two.txt "$dispatcher" 1000
        row "two services, $dispatcher, traced" 0 chain "$top/tests/rows/interrupt.img" two.txt "$dispatcher" 1000 --trace
        row "220 services, $dispatcher" 0 chain received.img received.txt "$dispatcher" 20000
    done
    row 'a direct service' 0 chain "$top/examples/urgent.img" "$top/examples/urgent.txt" looping 1000 --direct
    printf 'CLC1\0\0\0\0\001\0\0\0\300\0\0\0\001\0\0\0\007' >byte.img
    row 'a broken convention' 8 chain byte.img s.txt looping 10
    printf 'CLC1\0\0\0\0\001\0\0\0\277\0\0\0\001\0\0\0\007' >byte.img
    row 'an image in the place of the dispatchers' 5 chain byte.img s.txt looping 10
else
    passed="$passed chain"
fi
if is_built gen 0; then
    row 'no service' 0 gen 0
    row 'one service' 0 gen 1
else
    passed="$passed gen"
fi

# ---- the monitor

if is_built monitor no.img no.txt; then
    printf 'step 1\nmem 0 4\nback\nrun 10\n' >script.txt
    row 'a script' 0 monitor i.img script.txt
    awk 'BEGIN { for (i = 0; i < 17; i++) print "step 1"; for (i = 0; i < 17; i++) print "back" }' >script.txt
    row 'a script with 17 kept states' 0 monitor i.img script.txt
    printf 'jump\n' >script.txt
    row 'a refused script' 5 monitor i.img script.txt
else
    passed="$passed monitor"
fi
echo "allocations: each row is as it should be${passed:+; not built yet:$passed}"
