#!/bin/sh
# Builds the programs of examples/c with the compiler of the distribution, runs them, and compares what they send and,
# of the one with handlers, its services. It runs after the gate, and is skipped where a tool is missing.
top=$(cd "$(dirname "$0")/.." && pwd)
skip() {
    echo "C examples: skipped, since $1"
    exit 0
}
fail() {
    echo "C examples: $1" >&2
    exit 1
}
command -v rt >/dev/null || skip "there is no rt"
command -v riscv64-unknown-elf-gcc >/dev/null || skip "there is no riscv64-unknown-elf-gcc"
command -v riscv64-unknown-elf-objcopy >/dev/null || skip "there is no riscv64-unknown-elf-objcopy"
cd "$top" || exit 1
./clic_tool >/dev/null # so that it is built
folder=$(mktemp -d)
trap 'rm -rf "$folder"' EXIT

# The image of a program and its sources.
builds() {
    name=$1
    shift
    examples/c/build.sh "$folder/$name" "$@" || fail "$name isn't built"
    ./clic_tool unmem "$folder/$name.mem" 0 >"$folder/$name.img" || fail "$name.mem isn't read"
}

# What a program's report says of its services, its end and its output, and the words of the command.
sends() {
    name=$1
    shift
    ./clic_tool "$@" >"$folder/report" || fail "$*: status $?"
    grep '^s [0-9]\|^end \|^out \|^o ' "$folder/report" | cmp - "examples/c/$name.sent" || fail "$*: another text"
}

builds hello examples/c/hello.c
sends hello run "$folder/hello.img" examples/empty.txt 10000
builds serial examples/c/serial.c examples/c/serial_handlers.S
builds plain examples/c/serial.c examples/c/serial_plain.c

# A command that isn't built is no command: status 2.
./clic_tool chain no.img no.txt looping 0 >/dev/null
if [ $? -eq 2 ]; then
    echo "C examples: hello is as it should be, and serial isn't run, since clic_tool has no chain"
    exit 0
fi
for dispatcher in looping returning; do
    sends serial chain "$folder/serial.img" examples/c/serial.txt "$dispatcher" 100000
    sends serial chain "$folder/plain.img" examples/c/serial.txt "$dispatcher" 100000
done

# The static checker takes the plain handlers, wherever the compiler at hand has put them.
for handler in handler_16 handler_18; do
    at=$(riscv64-unknown-elf-nm "$folder/plain.elf" | sed -n "s/ T $handler\$//p")
    ./clic_tool lint "$folder/plain.img" "$((0x$at))" 536928256 536936448 >"$folder/verdict" || fail "$handler is refused"
done
./clic_tool bound "$folder/plain.img" 536928256 536936448 192 16:255,18:127 >"$folder/verdict" || fail "no bound"
grep -q '^bound ' "$folder/verdict" || fail "no bound is written"
echo "C examples: as they should be"
