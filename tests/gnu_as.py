#!/usr/bin/env python3
"""Compares the command `asm` with GNU `as` for RISC-V, where that is installed.

The examples and a program of some hundreds of random instructions are assembled by both, and the bytes compared. Each
example has to have the bytes of its stored image too. GNU knows no `.entry`, so that line is left out for it; its `la`,
and its `li` of a number whose lower twelve bits are 0, are other instructions, so neither is among the random ones.
"""
import os
import random
import re
import shutil
import struct
import subprocess
import sys
import tempfile

TOP = os.path.dirname(os.path.dirname(os.path.abspath(__file__)))
PROGRAM = os.path.join(TOP, 'clic_tool')
PREFIXES = ('riscv64-unknown-elf-', 'riscv32-unknown-elf-', 'riscv64-linux-gnu-')
EXAMPLES = ('first', 'echo', 'blink')
REGISTERS = ('zero ra sp gp tp t0 t1 t2 s0 s1 a0 a1 a2 a3 a4 a5 a6 a7 s2 s3 s4 s5 s6 s7 s8 s9 s10 s11 t3 t4 t5 t6 fp x0 '
             'x9 x31').split()
NOT_ZERO = [name for name in REGISTERS if name not in ('zero', 'x0')]
SHORT = 's0 s1 a0 a1 a2 a3 a4 a5'.split()
CSRS = 'mstatus misa mie mip mtvec mscratch mepc mcause mtval mvendorid marchid mimpid mhartid 0x307 839'.split()
SETS = [s for s in (''.join(c for i, c in enumerate('iorw') if n >> i & 1) for n in range(16)) if s]
COUNT = 900


def skip(why):
    print('gnu_as: skipped, since ' + why)
    sys.exit(0)


def fail(why):
    sys.exit('gnu_as: ' + why)


def signed(bits):
    return random.choice((random.randrange(-1 << bits - 1, 1 << bits - 1), -1 << bits - 1, (1 << bits - 1) - 1, 0, -1))


def rows():
    """Random instructions by kind: the length, how far a target may be or None, and the text before the target."""
    r, s, n = (lambda: random.choice(REGISTERS)), (lambda: random.choice(SHORT)), (lambda: random.choice(NOT_ZERO))
    pick = random.choice
    amount = lambda least: random.randrange(least, 32)
    large = lambda: random.randrange(-1 << 31, 1 << 31) | 1
    not_small = lambda: pick((signed(6) or 1, -32, 31))
    return [
        lambda: (4, None, '%s %s, %s, %s' % (pick('add sub sll slt sltu xor srl sra or and mul mulh mulhsu mulhu div divu '
                                                  'rem remu'.split()), r(), r(), r())),
        lambda: (4, None, '%s %s, %s, %d' % (pick('addi slti sltiu xori ori andi'.split()), r(), r(), signed(12))),
        lambda: (4, None, '%s %s, %s, %d' % (pick('slli srli srai'.split()), r(), r(), amount(0))),
        lambda: (4, None, '%s %s, %d(%s)' % (pick('lb lh lw lbu lhu sb sh sw jalr'.split()), r(), signed(12), r())),
        lambda: (4, None, '%s %s, 0x%x' % (pick(('lui', 'auipc')), r(), random.randrange(1 << 20))),
        lambda: (4, 4094, '%s %s, %s, ' % (pick('beq bne blt bge bltu bgeu'.split()), r(), r())),
        lambda: (4, 4094, '%s %s, ' % (pick(('beqz', 'bnez')), r())),
        lambda: (4, 1 << 20, 'jal %s, ' % r()),
        lambda: (4, 1 << 20, 'j '),
        lambda: (4, None, '%s %s, %s, %s' % (pick('csrrw csrrs csrrc'.split()), r(), pick(CSRS), r())),
        lambda: (4, None, '%s %s, %s, %d' % (pick('csrrwi csrrsi csrrci'.split()), r(), pick(CSRS), amount(0))),
        lambda: (4, None, 'csrr %s, %s' % (r(), pick(CSRS))),
        lambda: (4, None, 'csrw %s, %s' % (pick(CSRS), r())),
        lambda: (4, None, '%s %s, %d' % (pick(('csrsi', 'csrci')), pick(CSRS), amount(0))),
        lambda: (4, None, 'fence %s, %s' % (pick(SETS), pick(SETS))),
        lambda: (4, None, pick('fence ecall ebreak mret wfi nop ret'.split())),
        lambda: (4, None, 'mv %s, %s' % (r(), r())),
        lambda: (4, None, 'jr %s' % r()),
        lambda: (4, None, 'li %s, %d' % (r(), signed(12))),
        lambda: (8, None, 'li %s, %d' % (r(), large() if pick((True, False)) else pick((2049, -2049, 0x7FFFFFFF)))),
        lambda: (4, None, '.word 0x%x' % random.randrange(1 << 32)),
        lambda: (2, None, '.half 0x%x' % random.randrange(1 << 16)),
        lambda: (2, None, 'c.addi4spn %s, sp, %d' % (s(), random.randrange(4, 1024, 4))),
        lambda: (2, None, '%s %s, %d(%s)' % (pick(('c.lw', 'c.sw')), s(), random.randrange(0, 128, 4), s())),
        lambda: (2, None, pick(('c.nop', 'c.ebreak'))),
        lambda: (2, None, '%s %s, %d' % (pick(('c.addi', 'c.li')), n(), not_small())),
        lambda: (2, None, 'c.andi %s, %d' % (s(), signed(6))),
        lambda: (2, None, '%s %s, %d' % (pick(('c.srli', 'c.srai')), s(), amount(1))),
        lambda: (2, None, 'c.slli %s, %d' % (n(), amount(1))),
        lambda: (2, None, 'c.lui %s, %s' % (pick(('a0', 't0', 'ra')), pick(('1', '31', '0xFFFE0', '0xFFFFF')))),
        lambda: (2, None, 'c.addi16sp sp, %d' % (16 * pick((-32, -1, 1, 31)))),
        lambda: (2, None, '%s %s, %s' % (pick('c.sub c.xor c.or c.and'.split()), s(), s())),
        lambda: (2, None, '%s %s, %s' % (pick(('c.mv', 'c.add')), n(), n())),
        lambda: (2, 2046, pick(('c.j ', 'c.jal '))),
        lambda: (2, 254, '%s %s, ' % (pick(('c.beqz', 'c.bnez')), s())),
        lambda: (2, None, 'c.lwsp %s, %d(sp)' % (n(), random.randrange(0, 256, 4))),
        lambda: (2, None, 'c.swsp %s, %d(sp)' % (r(), random.randrange(0, 256, 4))),
        lambda: (2, None, '%s %s' % (pick(('c.jr', 'c.jalr')), n())),
    ]


def programs():
    """One random program as text for each of the two."""
    kinds = rows()
    made = [kinds[i % len(kinds)]() for i in range(COUNT)]
    random.shuffle(made)
    places = [0]
    for length, _, _ in made:
        places.append(places[-1] + length)
    ours, theirs = ['.entry 0'], []
    for i, (_, reach, text) in enumerate(made):
        target = ''
        label = ''
        if reach is not None:
            k = random.choice([k for k in range(len(made)) if -reach <= places[k] - places[i] <= reach])
            # A label, or its place as a number.
            target, label = random.choice((('L%d' % k,) * 2, ('0x%X' % places[k], 'L%d' % k)))
        ours.append('L%d: %s%s' % (i, text, target))
        line = 'L%d: %s%s' % (i, text, label)
        if text.startswith('c.'):
            line = '.option push\n.option rvc\n%s\n.option pop' % line
        theirs.append(line.replace('.half', '.2byte').replace('.word', '.4byte'))
    return '\n'.join(ours) + '\n', '\n'.join(theirs) + '\n'


def assembled(path):
    done = subprocess.run([PROGRAM, 'asm', path], capture_output=True)
    if done.returncode != 0:
        fail('%s: status %d, %s' % (path, done.returncode, done.stdout[:100]))
    return done.stdout


def only_segment(image, path):
    magic, entry, count, at, size = struct.unpack('<4sIIII', image[:20])
    if (magic, entry, count, at) != (b'CLC1', 0, 1, 0) or size != len(image) - 20:
        fail('%s: another head, %s' % (path, image[:20]))
    return image[20:]


def by_gnu(prefix, text, folder):
    path = os.path.join(folder, 'gnu')
    with open(path + '.s', 'w') as file:
        file.write(text)
    for words in (['as', '-march=rv32im_zicsr', '-mabi=ilp32', '-mno-relax', '-o', path + '.o', path + '.s'],
                  ['ld', '-m', 'elf32lriscv', '--no-relax', '-Ttext=0', '-e', '0', '-o', path + '.elf', path + '.o'],
                  ['objcopy', '-O', 'binary', '-j', '.text', path + '.elf', path + '.bin']):
        subprocess.run([prefix + words[0]] + words[1:], check=True)
    with open(path + '.bin', 'rb') as file:
        return file.read()


def compare(name, ours, theirs):
    if ours == theirs:
        return
    place = next((i for i, (a, b) in enumerate(zip(ours, theirs)) if a != b), min(len(ours), len(theirs)))
    fail('%s: other bytes at 0x%X: %s, and by GNU %s' % (name, place, ours[place:place + 8].hex(), theirs[place:place + 8].hex()))


def main():
    prefix = next((p for p in PREFIXES if shutil.which(p + 'as') and shutil.which(p + 'ld')), None)
    if prefix is None:
        skip('there is no GNU as for RISC-V')
    if shutil.which('rt') is None and not os.path.exists(os.path.join(TOP, 'crates/clic_tool/out/clic_tool')):
        skip('there is no rt')
    random.seed(7)
    with tempfile.TemporaryDirectory() as folder:
        for name in EXAMPLES:
            path = os.path.join(TOP, 'examples', name)
            image = assembled(path + '.s')
            with open(path + '.img', 'rb') as file:
                if file.read() != image:
                    fail(name + '.s: its image is another one')
            with open(path + '.s') as file:
                text = re.sub(r'(?m)^\.entry.*$', '', file.read())
            compare(name, only_segment(image, name), by_gnu(prefix, text, folder))
        ours, theirs = programs()
        path = os.path.join(folder, 'random.s')
        with open(path, 'w') as file:
            file.write(ours)
        compare('random', only_segment(assembled(path), path), by_gnu(prefix, theirs, folder))
    print('gnu_as: the examples and %d random lines have the same bytes' % COUNT)


main()
