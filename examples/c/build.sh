#!/bin/sh
# Builds a program: `build.sh OUT SOURCE..` makes OUT.elf and its memory text OUT.mem. Functions of a source whose name
# ends in _plain.c leave alone all registers but ra, a0, a1 and those that any function gives back, so that they can be
# handlers as they are; and their code goes upwards alone where it has no loop, so that the static checker takes it.
set -e
here=$(cd "$(dirname "$0")" && pwd)
out=$1
shift
objects=
plain='-fno-jump-tables -fno-tree-switch-conversion -fno-reorder-blocks -fno-crossjumping'
for register in a2 a3 a4 a5 a6 a7 t0 t1 t2 t3 t4 t5 t6; do
    plain="$plain -ffixed-$register"
done
for source in "$here/start.S" "$@"; do
    object="$out.$(basename "$source").o"
    flags=
    case $source in *_plain.c) flags=$plain ;; esac
    riscv64-unknown-elf-gcc $flags -march=rv32imc_zicsr -mabi=ilp32 -Os -Wall -Wextra -ffreestanding -fno-builtin \
        -msmall-data-limit=0 -I "$here" -Wa,-I,"$here" -c "$source" -o "$object"
    objects="$objects $object"
done
riscv64-unknown-elf-gcc -march=rv32imc -mabi=ilp32 -nostdlib -Wl,--no-relax -T "$here/board.ld" $objects -o "$out.elf"
riscv64-unknown-elf-objcopy -O verilog "$out.elf" "$out.mem"
rm -f $objects
