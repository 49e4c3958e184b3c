#!/bin/sh
# Builds a handler: `build.sh NAME OUT` makes OUT.elf of NAME.c, whose function on_irq is the handler of input 16, and
# its memory text OUT.mem.
set -e
here=$(cd "$(dirname "$0")" && pwd)
board=$here/../../examples/c
flags="-march=rv32imc_zicsr -mabi=ilp32 -Os -Wall -Wextra -ffreestanding -fno-builtin -msmall-data-limit=0"
flags="$flags -fno-jump-tables -I $board -Wa,-I,$board"
objects=
for source in "$board/start.S" "$here/$1.c" "$here/handler_16.S"; do
    object="$2.$(basename "$source").o"
    riscv64-unknown-elf-gcc $flags -c "$source" -o "$object"
    objects="$objects $object"
done
riscv64-unknown-elf-gcc -march=rv32imc -mabi=ilp32 -nostdlib -Wl,--no-relax -T "$board/board.ld" $objects -o "$2.elf"
riscv64-unknown-elf-objcopy -O verilog "$2.elf" "$2.mem"
rm -f $objects
