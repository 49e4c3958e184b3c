#!/usr/bin/env python3
"""Compares instructions with GNU objdump for RISC-V, where that is installed.

Which words and half-words are instructions: each is run alone for one step with a trace, and an exception of code 2
says that it is none. Control and status instructions are left out, since a register that isn't there gives the same
code. What the operands of instructions are: `disasm` lists them all. docs/DECISIONS.md says where the two differ and
why. With the argument `all` every half-word is tried, else some thousands.
"""
import os
import random
import re
import shutil
import struct
import subprocess
import sys
import tempfile
from concurrent.futures import ThreadPoolExecutor

TOP = os.path.dirname(os.path.dirname(os.path.abspath(__file__)))
PROGRAM = os.path.join(TOP, 'crates', 'clic_tool', 'out', 'clic_tool')
NAMES = ('riscv64-unknown-elf-objdump', 'riscv64-linux-gnu-objdump', 'riscv32-unknown-elf-objdump')
OPCODES = (0x37, 0x17, 0x6F, 0x67, 0x63, 0x03, 0x23, 0x13, 0x33, 0x0F)
LONG = set('lui auipc jal jalr beq bne blt bge bltu bgeu lb lh lw lbu lhu sb sh sw addi slti sltiu xori ori andi slli '
           'srli srai add sub sll slt sltu xor srl sra or and fence fence.tso mul mulh mulhsu mulhu div divu rem remu ecall ebreak '
           'mret wfi'.split())
SHORT = set('c.' + name for name in 'addi4spn lw sw nop addi jal li addi16sp lui srli srai andi sub xor or and j beqz '
            'bnez slli lwsp jr mv ebreak jalr add swsp slli64 srli64 srai64'.split())


def skip(why):
    print('objdump: skipped, since ' + why)
    sys.exit(0)


def disassembled(tool, values, width, folder):
    """The mnemonic and the operands that objdump prints for each value."""
    path = os.path.join(folder, 'bits')
    with open(path, 'wb') as file:
        for value in values:
            file.write(struct.pack('<I', value) if width == 4 else struct.pack('<HH', value, 1))
    words = [tool, '-D', '-b', 'binary', '-m', 'riscv:rv32', '-M', 'no-aliases', path]
    rows = {}
    for line in subprocess.run(words, capture_output=True, text=True, check=True).stdout.split('\n'):
        row = re.match(r'\s*([0-9a-f]+):\s+[0-9a-f]+\s+(\S+)\s*(.*)', line)
        if row:
            rows[int(row.group(1), 16)] = (row.group(2), row.group(3))
    return [rows.get(4 * i, ('', '')) for i in range(len(values))]


def is_run(value, width, folder):
    """Whether the program takes it for an instruction."""
    bits = struct.pack('<I', value) if width == 4 else struct.pack('<H', value)
    path = os.path.join(folder, '%x.img' % value)
    with open(path, 'wb') as file:
        file.write(b'CLC1' + struct.pack('<IIII', 0, 1, 0, len(bits)) + bits)
    words = [PROGRAM, 'run', path, os.path.join(folder, 'empty'), '1', '--trace']
    first = subprocess.run(words, capture_output=True).stdout.split(b'\n')[0]
    os.unlink(path)
    return first != b'x 00000000 2'


def is_named(value, width, row):
    """Whether objdump takes it for one of the instructions that the hart has, with the known differences."""
    name, operands = row
    if width == 4:
        if value & 0x707F == 0x0F:
            return True  # FENCE, whatever its ignored fields hold
        if name in ('slli', 'srli', 'srai'):
            return int(operands.split(',')[-1], 16) < 32
        return name in LONG
    if name in ('c.slli', 'c.srli', 'c.srai'):
        return value & 0x1000 == 0  # no shift by more than 31
    if name == 'c.addi16sp':
        return not operands.endswith(',0')
    return name in SHORT


def words_to_try(count):
    words = []
    while len(words) < count:
        word = random.getrandbits(32) & ~0x7F | random.choice(OPCODES)
        if len(words) % 2:
            word = word & 0x01FFFFFF | random.choice((0, 0x40000000, 0x02000000))
        words.append(word)
    return words


def compare(tool, values, width, folder):
    rows = disassembled(tool, values, width, folder)
    with ThreadPoolExecutor(os.cpu_count()) as pool:
        runs = list(pool.map(lambda value: is_run(value, width, folder), values))
    wrong = 0
    for value, row, run in zip(values, rows, runs):
        if is_named(value, width, row) != run:
            print('objdump: %0*X is %s %s, and the program says %s' % (2 * width, value, *row, run), file=sys.stderr)
            wrong += 1
    return wrong


def listed(values, width, folder):
    """The mnemonic and the operands that `disasm` prints for each value, which stand one after another from 0 on."""
    path = os.path.join(folder, 'listed.img')
    bits = b''.join(struct.pack('<I' if width == 4 else '<H', value) for value in values)
    with open(path, 'wb') as file:
        file.write(b'CLC1' + struct.pack('<IIII', 0, 1, 0, len(bits)) + bits)
    text = subprocess.run([PROGRAM, 'disasm', path], capture_output=True, text=True, check=True).stdout
    lines = [line.partition(' ') for line in text.split('\n')[2:-1]]
    return [(name, operands) for name, space, operands in lines]


def parts_of(operands):
    """Names as they stand, and numbers as words."""
    parts = [part for part in re.split(r'[ ,()]+', operands.split('<')[0].split('#')[0]) if part]
    numbers = [re.fullmatch(r'-?(0x[0-9a-fA-F]+|[0-9]+)', part) for part in parts]
    return [int(part, 0) % 2**32 if number else part for part, number in zip(parts, numbers)]


def as_disasm(row):
    """objdump's row by the names that `disasm` has: it calls a shift by 0 otherwise, and a `c.nop`."""
    name, operands = row
    if name in ('c.slli64', 'c.srli64', 'c.srai64'):
        return name[:-2], operands + ',0'
    if name == 'c.addi' and operands.startswith('zero,'):
        return 'c.nop', '' if operands == 'zero,0' else operands[5:]
    return row


def are_same(mine, theirs):
    """Whether the operands are the same. objdump names some control registers that `disasm` prints by number, and
    prints a number for some that `disasm` names."""
    if mine[0] != theirs[0]:
        return False
    if mine[0].startswith('csr'):
        mine, theirs = (parts_of(row[1])[::2] for row in (mine, theirs))
        return mine == theirs
    return parts_of(mine[1]) == parts_of(theirs[1].replace('unknown', '0'))


def compare_operands(tool, values, width, folder):
    """Values that objdump and the program both take for instructions, in images that they fill."""
    values = values[:0x10000 // width]
    path = os.path.join(folder, 'all')
    with open(path, 'wb') as file:
        for value in values:
            file.write(struct.pack('<I' if width == 4 else '<H', value))
    words = [tool, '-D', '-z', '-b', 'binary', '-m', 'riscv:rv32', '-M', 'no-aliases', path]
    rows = {}
    for line in subprocess.run(words, capture_output=True, text=True, check=True).stdout.split('\n'):
        row = re.match(r'\s*([0-9a-f]+):\s+[0-9a-f]+\s+(\S+)\s*(.*)', line)
        if row:
            rows[int(row.group(1), 16)] = (row.group(2), row.group(3))
    wrong, count = 0, 0
    for i, (value, mine) in enumerate(zip(values, listed(values, width, folder))):
        theirs = rows.get(width * i, ('', ''))
        if mine[0].startswith('.'):
            continue  # whether it is an instruction is compared above
        count += 1
        theirs = as_disasm(theirs)
        if not are_same(mine, theirs):
            print('objdump: %0*X is %s %s, and disasm says %s %s' % (2 * width, value, *theirs, *mine), file=sys.stderr)
            wrong += 1
    return wrong, count


def main():
    tool = next((name for name in NAMES if shutil.which(name)), None)
    if tool is None:
        skip('it is not installed')
    if shutil.which('rt') is None:
        skip('there is no rt')
    random.seed(20)
    halves = [half for half in range(0x10000) if half % 4 != 3]
    if sys.argv[1:] != ['all']:
        halves = random.sample(halves, 2000)
    listed_count = 0
    with tempfile.TemporaryDirectory() as folder:
        open(os.path.join(folder, 'empty'), 'w').close()
        subprocess.run([os.path.join(TOP, 'clic_tool')], stdout=subprocess.DEVNULL)
        wrong = compare(tool, words_to_try(2000), 4, folder) + compare(tool, halves, 2, folder)
        words = words_to_try(12000) + [random.getrandbits(32) & ~0x7F | 0x73 for _ in range(4000)]
        images = [(words, 4)] + [(halves[i:i + 0x6000], 2) for i in range(0, len(halves), 0x6000)]
        for values, width in images:
            differ, count = compare_operands(tool, values, width, folder)
            wrong += differ
            listed_count += count
    if wrong:
        sys.exit(1)
    print('objdump: agrees on 2000 words and %d half-words, and on the operands of %d instructions' % (len(halves), listed_count))


main()
