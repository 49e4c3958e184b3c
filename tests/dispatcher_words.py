#!/usr/bin/env python3
"""Compares the words of the dispatchers with GNU objdump for RISC-V, where that is installed.

The words and their instructions stand in chain_moves/specs/Words.antt, and the words again in chain_moves/src.
"""
import os
import re
import shutil
import struct
import subprocess
import sys
import tempfile

TOP = os.path.dirname(os.path.dirname(os.path.abspath(__file__)))
NAMES = ('riscv64-unknown-elf-objdump', 'riscv64-linux-gnu-objdump', 'riscv32-unknown-elf-objdump')
CSRS = {'mstatus': 0x300, 'mscratch': 0x340, 'mepc': 0x341, 'mcause': 0x342, 'mnxti': 0x345, 'mscratchcswl': 0x349}


def skip(why):
    print('dispatcher words: skipped, since ' + why)
    sys.exit(0)


def table():
    """The address, the word and the instruction of each row, for either dispatcher."""
    text = open(os.path.join(TOP, 'crates', 'chain_moves', 'specs', 'Words.antt')).read()
    chosen = {(name, kind): int(word, 16)
              for name, kind, word in re.findall(r'^(\w+_word) (Looping|Returning) = (0x[0-9A-F]+)', text, re.M)}
    rows = re.findall(r'^ +(?:∷ )?(0x[0-9A-F]+|\w+_word d) +-- ([0-9A-F]{2}): (.*)$', text, re.M)
    for kind in ('Looping', 'Returning'):
        for word, at, shown in rows:
            value = chosen[word.split()[0], kind] if word.endswith(' d') else int(word, 16)
            if shown.endswith(', or nop'):
                shown = 'addi zero, zero, 0' if kind == 'Returning' else shown[:-len(', or nop')]
            yield kind, int(at, 16), value, shown


def parts(row):
    """The mnemonic and the operands, where control registers and addresses are numbers."""
    name, rest = (row.split(None, 1) + [''])[:2]
    found = []
    for part in re.split(r'[ ,()]+', rest.split('<')[0].split('#')[0]):
        if part:
            value = CSRS.get(part, part)
            number = re.fullmatch(r'-?(0x[0-9a-fA-F]+|[0-9]+)', str(value))
            found.append(int(str(value), 0) if number else value)
    return name, found


def disassembled(tool, words):
    with tempfile.TemporaryDirectory() as folder:
        path = os.path.join(folder, 'words')
        with open(path, 'wb') as file:
            file.write(b''.join(struct.pack('<I', word) for word in words))
        line = [tool, '-D', '-b', 'binary', '-m', 'riscv:rv32', '-M', 'no-aliases', '--adjust-vma=0x40', path]
        text = subprocess.run(line, capture_output=True, text=True, check=True).stdout
    rows = re.findall(r'^\s*([0-9a-f]+):\s+[0-9a-f]{8}\s+(\S.*)$', text, re.M)
    return {int(at, 16): row for at, row in rows}


def main():
    tool = next((name for name in NAMES if shutil.which(name)), None)
    if tool is None:
        skip('no objdump for RISC-V is installed')
    wrong = 0
    rows = list(table())
    for kind in ('Looping', 'Returning'):
        mine = [row for row in rows if row[0] == kind]
        assert [at for _, at, _, _ in mine] == list(range(0x40, 0xB4, 4))
        theirs = disassembled(tool, [word for _, _, word, _ in mine])
        for _, at, word, shown in mine:
            if parts(theirs.get(at, '')) != parts(shown):
                print('dispatcher words: %s %X: %08X is %s, and not %s' % (kind, at, word, theirs.get(at), shown), file=sys.stderr)
                wrong += 1
    print('dispatcher words: %d words compared' % len(rows))
    return 1 if wrong else 0


if __name__ == '__main__':
    sys.exit(main())
