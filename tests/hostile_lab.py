#!/usr/bin/env python3
"""Makes ELF files and files of names with things wrong in them, and compares what clic_lab says of each with a second
reader of the format.

A file is made of a few sections, program headers and symbols, and then some of its fields or bytes are changed. Which
file it is follows from the seed and its number alone. Of each it is asked:

- `elf`, `names` and `names --code` end within two seconds, with nothing on standard error, and the same the second time;
- they write what the second reader makes of the file, or the refusal that it comes to first;
- an image that `elf` writes is taken by clic_tool, and its names by `trace`;
- a file of names is taken by `trace`, or refused with the reason and the line that the second reader tells.

By hand: `python3 tests/hostile_lab.py --files 100000`.
"""
import argparse
import os
import random
import shutil
import signal
import struct
import subprocess
import sys
import tempfile
import time

import hostile
from hostile import TOP, Trial, Wrong, read_image

LAB = os.path.join(TOP, 'crates', 'clic_lab', 'out', 'clic_lab')
TOOL = os.path.join(TOP, 'crates', 'clic_tool', 'out', 'clic_tool')
MOST = 65536
WORDS = (0, 1, 2, 3, 4, 15, 16, 31, 32, 40, 51, 52, 0xFF, 0x100, 0xFFFF, 0x10000, 0x1FFFFFFF, 0x20000000, 0x2000FFFF, 0x20010000,
         0x7FFFFFFF, 0x80000000, 0xFFFFFFF0, 0xFFFFFFFF)


class Refused(Exception):
    pass


# ---- a second reader

class Elf:
    """The headers of a file, or the first refusal of one."""

    def __init__(self, data):
        self.data = data
        for size, least in ((0, 4), (4, 52)):
            if len(data) < least:
                raise Refused('Truncated %d' % size)
            if data[:4] != b'\x7fELF':
                raise Refused('BadMagic 0')
        for at, wanted, why in ((4, 1, 'BadClass'), (5, 1, 'BadOrder')):
            if data[at] != wanted:
                raise Refused('%s %d' % (why, at))
        if self.half(16) != 2:
            raise Refused('NotLinked 16')
        if self.half(18) != 243:
            raise Refused('NotRiscV 18')
        self.programs = self.table(28, 42, 44, 32) if self.half(44) else []
        if not self.half(48):
            raise Refused('NoSections 48')
        self.sections = self.table(32, 46, 48, 40)

    def half(self, at):
        return struct.unpack_from('<H', self.data, at)[0]

    def word(self, at):
        return struct.unpack_from('<I', self.data, at)[0]

    def table(self, start, size, count, wanted):
        """Where the headers of a table stand."""
        if self.half(size) != wanted:
            raise Refused('BadHeader %d' % size)
        first, number = self.word(start), self.half(count)
        if first + wanted * number > len(self.data):
            raise Refused('Truncated %d' % start)
        return [first + wanted * i for i in range(number)]

    def place(self, section):
        """The load address of a section."""
        _, _, _, address, offset, size = struct.unpack_from('<6I', self.data, section)
        for program in self.programs:
            kind, start, virtual, physical, in_file, in_memory = struct.unpack_from('<6I', self.data, program)
            if (kind == 1 and start <= offset and offset + size <= start + in_file
                    and virtual <= address and address + size <= virtual + in_memory):
                return (physical + offset - start) % 2 ** 32
        raise Refused('Unplaced %d' % section)

    def image(self):
        segments = []
        for section in self.sections:
            _, kind, flags, _, offset, size = struct.unpack_from('<6I', self.data, section)
            if not flags & 2 or kind in (0, 8) or not size:
                continue
            if len(segments) == 64:
                raise Refused('TooMany %d' % section)
            if offset + size > len(self.data):
                raise Refused('Truncated %d' % section)
            at = self.place(section)
            if not any(low <= at and at + size <= low + 65536 for low in (0, 0x20000000)):
                raise Refused('OutsideMemory %d' % section)
            if any(at < other + len(part) and other < at + size for other, part in segments):
                raise Refused('Overlap %d' % section)
            segments.append((at, self.data[offset:offset + size]))
        return b'CLC1' + struct.pack('<II', self.word(24), len(segments)) + b''.join(
            struct.pack('<II', at, len(part)) + part for at, part in sorted(segments))

    def strings(self, table):
        """The bytes of the strings that a symbol table names."""
        link = self.word(table + 24)
        if link >= len(self.sections) or self.word(self.sections[link] + 4) != 3:
            raise Refused('BadLink %d' % table)
        header = self.sections[link]
        start, size = self.word(header + 16), self.word(header + 20)
        if start + size > len(self.data):
            raise Refused('Truncated %d' % header)
        return self.data[start:start + size]

    def names(self, code):
        table = next((it for it in self.sections if self.word(it + 4) == 2), None)
        if table is None:
            raise Refused('NoSymbols 48')
        start, size = self.word(table + 16), self.word(table + 20)
        if self.word(table + 36) != 16 or size % 16:
            raise Refused('BadHeader %d' % table)
        if start + size > len(self.data):
            raise Refused('Truncated %d' % table)
        strings, lines = self.strings(table), []
        for symbol in range(start, start + size, 16):
            name, value, _, info, _, index = struct.unpack_from('<IIIBBH', self.data, symbol)
            if info % 16 > 2 or index >= len(self.sections) or not name:
                continue
            wanted = 6 if code else 2
            if self.word(self.sections[index] + 8) & wanted != wanted:
                continue
            text, zero, _ = strings[name:name + 1025].partition(b'\0')
            if (zero and not text) or text[:1] == b'$' or text[:2] == b'.L':
                continue
            if not zero or any(byte < 0x21 or byte == 0x7F for byte in text):
                raise Refused('BadName %d' % symbol)
            if len(lines) == MOST:
                raise Refused('TooMany %d' % symbol)
            lines.append(b'%08X %s\n' % (value, text))
        return b''.join(lines)


def read_names(data):
    """None, or the refusal."""
    if len(data) > 4194304:
        return 'TooLarge'
    names = 0
    for number, line in enumerate(data.split(b'\n'), 1):
        if not line:
            continue
        digits, space, name = line[:8], line[8:9], line[9:]
        if (len(digits) < 8 or any(it not in b'0123456789ABCDEFabcdef' for it in digits) or space != b' ' or not name
                or any(it < 0x21 or it == 0x7F for it in name)):
            return 'BadLine %d' % number
        if names == MOST:
            return 'TooMany %d' % number
        names += 1
    return None


# ---- how files are made

def elf_file(chance):
    """A file with some sections, in which nothing is wrong but by chance."""
    parts, sections, programs, at, end = [], [], [], 0, 52
    for _ in range(chance.choice((0, 1, 2, 5, 66))):
        data = bytes(chance.getrandbits(8) for _ in range(chance.choice((0, 1, 4, 60))))
        kind = chance.choice((1, 1, 1, 8))
        low = chance.choice((0, 0x200, 0x20000000)) if chance.random() < 0.2 else at
        sections.append([0, kind, chance.choice((2, 6, 7, 3, 0)), low, end, len(data), 0, 0, 1, 0])
        programs.append([1, end, low, low, len(data), len(data), 5, 1])
        parts.append(data)
        at, end = max(at, low) + len(data), end + len(data)
    names, symbols = b'\0', bytes(16)
    for _ in range(chance.choice((0, 1, 3, 20))):
        name = chance.choice((b'main', b'_start', b'$x', b'.L0\x02', b'a b', b'caf\xc3\xa9', b'n' * chance.choice((1, 1023, 1024, 1025)), b''))
        symbols += struct.pack('<IIIBBH', len(names) if name else 0, chance.choice(WORDS), 0, chance.choice((0, 1, 2, 3, 18)), 0,
                               chance.choice((0, 1, 1, 1, 2, 0xFFF1, 70)))
        names += name + b'\0'
    sections.insert(0, [0] * 10)
    sections.append([0, 2, 0, 0, end, len(symbols), len(sections) + 1, 0, 4, 16])
    end += len(symbols)
    sections.append([0, 3, 0, 0, end, len(names), 0, 0, 1, 0])
    end += len(names)
    if chance.random() < 0.3:
        programs = [[1, 52, 0, 0, end, end, 5, 1]] + programs
    header = b'\x7fELF\x01\x01\x01' + bytes(9) + struct.pack(
        '<HHIIIIIHHHHHH', 2, 243, 1, chance.choice(WORDS), end if programs else 0, end + 32 * len(programs), 0, 52, 32,
        len(programs), 40, len(sections), 0)
    return (header + b''.join(parts) + symbols + names + b''.join(struct.pack('<8I', *it) for it in programs)
            + b''.join(struct.pack('<10I', *it) for it in sections))


def changed(chance, data):
    """The file with some of its fields or bytes changed."""
    for _ in range(chance.choice((0, 1, 1, 2, 5))):
        at, how = chance.randrange(len(data) + 1), chance.randrange(6)
        if how == 0:
            data = data[:at]
        elif how == 1 and at < len(data):
            data = data[:at] + bytes([data[at] ^ 1 << chance.randrange(8)]) + data[at + 1:]
        elif how == 2 and len(data) > 51:
            at = chance.choice((16, 18, 24, 28, 32, 42, 44, 46, 48))
            data = data[:at] + struct.pack('<H', chance.choice(WORDS) % 65536) + data[at + 2:]
        elif how > 2 and len(data) > 100:
            # A word of a table, mostly: they stand at the end.
            at = len(data) - 4 * chance.randrange(1, len(data) // 4)
            data = data[:at] + struct.pack('<I', chance.choice(WORDS + (len(data), len(data) - 1, at))) + data[at + 4:]
    return data


def names_file(chance):
    lines = []
    for _ in range(chance.choice((0, 1, 5, 60))):
        line = b'%08X %s' % (chance.choice(WORDS + (0x200, 0x204)), chance.choice((b'main', b'on_byte', b'a+b', b'<x>', b'\xff', b'#')))
        if chance.random() < 0.02:
            line = chance.choice((b'', line + b' ', line + b'\r', b' ' + line, line[1:], line.lower(), line.replace(b' ', b'  '),
                                  line[:8], line + b'\x7f', b'0x' + line))
        lines.append(line)
    return b'\n'.join(lines) + chance.choice((b'', b'\n', b'\n\n'))


# ---- how they are tried

def asks(trial, words):
    trial.latest = ' '.join(words)
    status, text = trial.once(words)
    if (status, text) != trial.once(words):
        raise Wrong('another text or status the second time')
    return status, text


def same(trial, words, wanted):
    """What the second reader makes of the file, or its refusal."""
    try:
        wanted = 0, wanted()
    except Refused as refusal:
        wanted = 5, b'refused elf %s\n' % str(refusal).encode()
    status, text = asks(trial, words)
    if (status, text) != wanted:
        raise Wrong('status %d with %r, and by the second reader %d with %r' % (status, text[:100], wanted[0], wanted[1][:100]))
    return status, text


def tries_elf(trial, data):
    trial.put('a.elf', data)
    status, image = same(trial, ['elf', 'a.elf'], lambda: Elf(data).image())
    for flags in ([], ['--code']):
        status_of_names, names = same(trial, ['names', 'a.elf'] + flags, lambda: Elf(data).names(bool(flags)))
    if status == 0:
        if isinstance(read_image(image), str):
            raise Wrong('the image is refused as ' + read_image(image))
        trial.put('a.img', image)
        taken = subprocess.run([TOOL, 'mem', 'a.img'], stdout=subprocess.DEVNULL).returncode
        if taken != 0:
            raise Wrong('clic_tool has status %d for the image' % taken)
    if status_of_names == 0:
        tries_names(trial, names)


def tries_names(trial, data):
    trial.put('names', data)
    wanted = read_names(data)
    status, text = asks(trial, ['trace', 'first.img', 'empty.txt', '100', '--names', 'names'])
    if wanted is None and status != 0 or wanted is not None and (status, text) != (5, b'refused names %s\n' % wanted.encode()):
        raise Wrong('status %d with %r, and by the second reader %s' % (status, text[:100], wanted or 'taken'))


def main():
    parser = argparse.ArgumentParser(description=__doc__.split('\n')[0])
    parser.add_argument('--files', type=int, default=2000, help='how many files at most')
    parser.add_argument('--seconds', type=float, default=10, help='how long at most, where no number of files is named')
    parser.add_argument('--seed', type=int, default=1)
    parser.add_argument('--first', type=int, default=0, help='the number of the first file')
    words = parser.parse_args()
    if not shutil.which('rt'):
        print('hostile files of clic_lab: skipped, since there is no rt')
        return 0
    for program in ('clic_tool', 'clic_lab'):
        subprocess.run([os.path.join(TOP, program)], stdout=subprocess.DEVNULL)  # so that it is built
    hostile.PROGRAM = LAB
    until = time.monotonic() + (words.seconds if '--files' not in ' '.join(sys.argv) else 10 ** 6)
    signal.signal(signal.SIGALRM, hostile.is_late)
    tried = wrong = 0
    with tempfile.TemporaryDirectory() as folder:
        for name in ('first.img', 'empty.txt'):
            shutil.copy(os.path.join(TOP, 'examples', name), folder)
        os.chdir(folder)
        for number in range(words.first, words.first + words.files):
            if time.monotonic() > until:
                break
            chance = random.Random('%d %d' % (words.seed, number))
            trial = Trial(())
            try:
                if chance.random() < 0.8:
                    tries_elf(trial, changed(chance, elf_file(chance)))
                else:
                    tries_names(trial, names_file(chance))
            except Wrong as why:
                wrong += 1
                print('hostile files of clic_lab: file %d: %s: %s' % (number, trial.latest, why), file=sys.stderr)
            tried += 1
        os.chdir(TOP)
    print('hostile files of clic_lab: %d files, %d wrong' % (tried, wrong))
    return 1 if wrong or not tried else 0


if __name__ == '__main__':
    sys.exit(main())
