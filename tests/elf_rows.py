#!/usr/bin/env python3
"""Rows on ELF files and names for the second program: `elf_rows.py PROGRAM`, where `PROGRAM elf FILE` writes an image and
`PROGRAM names FILE [--code]` the names.

Each refusal once, by one field of a small file that is built here; that file cut at each of its bytes, where the answer comes
from the order of the tests alone; the edges of both memories; and, where GNU objcopy and nm are there, their bytes and names
for the same file."""
import os
import shutil
import struct
import subprocess
import sys
import tempfile

PROGRAM = sys.argv[1:] or ["./clic_lab"]
folder = tempfile.mkdtemp()
path = os.path.join(folder, "a.elf")
tried = 0


def fail(text):
    print("elf rows: " + text, file=sys.stderr)
    sys.exit(1)


def says(bytes_, words, status, wanted):
    """The program's status and text on a file."""
    global tried
    tried += 1
    with open(path, "wb") as f:
        f.write(bytes_)
    r = subprocess.run(PROGRAM + [words[0], path] + words[1:], capture_output=True)
    if (r.returncode, r.stdout, r.stderr) != (status, wanted, b""):
        fail("%s: %d %r %r in place of %d %r" % (words, r.returncode, r.stdout[:80], r.stderr[:80], status, wanted[:80]))


def refuses(bytes_, why, words=("elf",)):
    says(bytes_, list(words), 5, ("refused elf %s\n" % why).encode())


def image(entry, segments):
    out = b"CLC1" + struct.pack("<II", entry, len(segments))
    for at, content in segments:
        out += struct.pack("<II", at, len(content)) + content
    return out


# ---- a small file: two segments, of which the second is loaded below the first, six sections, four symbols
PROGRAMS, SECTIONS, TEXT, DATA, TABLE, STRINGS = 52, 116, 356, 360, 364, 428
NAMES = b"\0main\0$x\0small\0"


def header(phnum, shnum, shoff=SECTIONS, entry=0x202, strings=5):
    return b"\x7fELF\x01\x01\x01" + bytes(9) + struct.pack("<HHIIIIIHHHHHH", 2, 243, 1, entry, PROGRAMS, shoff, 0, 52, 32, phnum, 40, shnum, strings)


def section(kind, flags, address, offset, size, link=0, entry_size=0):
    return struct.pack("<10I", 0, kind, flags, address, offset, size, link, 0, 1, entry_size)


def symbol(name, value, info, number):
    return struct.pack("<IIIBBH", name, value, 0, info, 0, number)


def program(offset, virtual, physical, file_size, memory_size):
    return struct.pack("<8I", 1, offset, virtual, physical, file_size, memory_size, 7, 1)


small = (header(2, 6) + program(TEXT, 0, 0x200, 4, 4) + program(DATA, 0x20000000, 0x100, 2, 10)
         + section(0, 0, 0, 0, 0) + section(1, 6, 0, TEXT, 4) + section(1, 3, 0x20000000, DATA, 2) + section(8, 3, 0x20000002, DATA + 2, 8)
         + section(2, 0, 0, TABLE, 64, 5, 16) + section(3, 0, 0, STRINGS, len(NAMES))
         + bytes((1, 2, 3, 4, 5, 6, 0, 0)) + symbol(0, 0, 0, 0) + symbol(1, 0, 2, 1) + symbol(6, 0, 0, 1) + symbol(9, 0x20000000, 1, 2) + NAMES)
segments = [(0x100, b"\x05\x06"), (0x200, b"\x01\x02\x03\x04")]
says(small, ["elf"], 0, image(0x202, segments))
says(small, ["names"], 0, b"00000000 main\n20000000 small\n")
says(small, ["names", "--code"], 0, b"00000000 main\n")

if shutil.which("riscv64-unknown-elf-objcopy"):
    memory = os.path.join(folder, "a.mem")
    with open(path, "wb") as f:
        f.write(small)
    subprocess.run(["riscv64-unknown-elf-objcopy", "-O", "verilog", path, memory], check=True)
    theirs = []
    for word in open(memory).read().split():
        if word[0] == "@":
            theirs.append((int(word[1:], 16), bytearray()))
        else:
            theirs[-1][1].append(int(word, 16))
    if sorted((at, bytes(content)) for at, content in theirs) != segments:
        fail("objcopy has other bytes: %r" % theirs)
    lines = subprocess.run(["riscv64-unknown-elf-nm", "-p", path], capture_output=True, check=True).stdout.decode().split("\n")
    if [(line.split()[0], line.split()[2]) for line in lines if line] != [("00000000", "main"), ("20000000", "small")]:
        fail("nm has other names: %r" % lines)


# ---- each refusal, by one field
def with_field(place, form, value):
    b = bytearray(small)
    struct.pack_into("<" + form, b, place, value)
    return bytes(b)


FIRST, SECOND, SYMBOLS, TEXTS = (SECTIONS + 40 * k for k in (1, 2, 4, 5))
size = len(small)
for place, form, value, why in (
        (0, "B", 0x7E, "BadMagic 0"), (4, "B", 2, "BadClass 4"), (5, "B", 2, "BadOrder 5"), (16, "H", 1, "NotLinked 16"), (16, "H", 3, "NotLinked 16"),
        (18, "H", 62, "NotRiscV 18"), (42, "H", 56, "BadHeader 42"), (28, "I", size - 63, "Truncated 28"), (28, "I", 0xFFFFFFFF, "Truncated 28"),
        (48, "H", 0, "NoSections 48"), (46, "H", 64, "BadHeader 46"), (32, "I", size - 239, "Truncated 32"), (32, "I", 0xFFFFFFFF, "Truncated 32"),
        (48, "H", 0xFFFF, "Truncated 32"), (FIRST + 20, "I", 0x7FFFFFFF, "Truncated %d" % FIRST), (FIRST + 16, "I", 0xFFFFFFFE, "Truncated %d" % FIRST),
        (FIRST + 16, "I", DATA, "Unplaced %d" % FIRST), (FIRST + 12, "I", 4, "Unplaced %d" % FIRST), (PROGRAMS, "I", 2, "Unplaced %d" % FIRST),
        (PROGRAMS + 12, "I", 0x10000, "OutsideMemory %d" % FIRST), (PROGRAMS + 12, "I", 0xFFFFFFFE, "OutsideMemory %d" % FIRST),
        (PROGRAMS + 12, "I", 0xFFFE, "OutsideMemory %d" % FIRST), (PROGRAMS + 44, "I", 0x203, "Overlap %d" % SECOND), (PROGRAMS + 44, "I", 0x1FF, "Overlap %d" % SECOND)):
    refuses(with_field(place, form, value), why)
for place, form, value, why in (
        (SYMBOLS + 4, "I", 1, "NoSymbols 48"), (SYMBOLS + 36, "I", 24, "BadHeader %d" % SYMBOLS), (SYMBOLS + 20, "I", 63, "BadHeader %d" % SYMBOLS),
        (SYMBOLS + 20, "I", 0x10000000, "Truncated %d" % SYMBOLS), (SYMBOLS + 24, "I", 6, "BadLink %d" % SYMBOLS), (SYMBOLS + 24, "I", 4, "BadLink %d" % SYMBOLS),
        (TEXTS + 20, "I", 0x10000000, "Truncated %d" % TEXTS), (TABLE + 16, "I", 15, "BadName %d" % (TABLE + 16)), (TABLE + 16, "I", 0xFFFFFFFF, "BadName %d" % (TABLE + 16)),
        (STRINGS + 2, "B", 0x20, "BadName %d" % (TABLE + 16)), (STRINGS + 2, "B", 0x7F, "BadName %d" % (TABLE + 16))):
    refuses(with_field(place, form, value), why, ("names",))
# a piece that ends where the other begins, on either side
says(with_field(PROGRAMS + 44, "I", 0x204), ["elf"], 0, image(0x202, [segments[1], (0x204, b"\x05\x06")]))
says(with_field(PROGRAMS + 44, "I", 0x1FE), ["elf"], 0, image(0x202, [(0x1FE, b"\x05\x06"), segments[1]]))
# a byte above 0x7F stands in a name; symbols of another kind, of no section or of no memory are passed over
says(with_field(STRINGS + 2, "B", 0xE4), ["names"], 0, b"00000000 m\xe4in\n20000000 small\n")
for info, number in ((3, 1), (4, 1), (6, 1), (2, 0), (2, 0xFFF1), (2, 4), (2, 6)):
    b = bytearray(small)
    struct.pack_into("<BBH", b, TABLE + 16 + 12, info, 0, number)
    says(bytes(b), ["names"], 0, b"20000000 small\n")

# ---- cut at each byte: what the tests meet first that isn't there
for end in range(size):
    if end < 4:
        why = "Truncated 0"
    elif end < 52:
        why = "Truncated 4"
    elif end < PROGRAMS + 64:
        why = "Truncated 28"
    elif end < SECTIONS + 240:
        why = "Truncated 32"
    elif end < TEXT + 4:
        why = "Truncated %d" % FIRST
    elif end < DATA + 2:
        why = "Truncated %d" % SECOND
    else:
        says(small[:end], ["elf"], 0, image(0x202, segments))
        refuses(small[:end], "Truncated %d" % (SYMBOLS if end < TABLE + 64 else TEXTS), ("names",))
        continue
    refuses(small[:end], why)


# ---- one section, to the last byte of each memory and one more
def one(at, count):
    return header(1, 1, 84, 0, 0) + program(124, at, at, count, count) + section(1, 2, at, 124, count) + bytes(count)


for at, count in ((0, 65536), (0xFFFF, 1), (0x20000000, 65536), (0x2000FFFF, 1)):
    says(one(at, count), ["elf"], 0, image(0, [(at, bytes(count))]))
for at, count in ((0, 65537), (0xFFFF, 2), (0x10000, 1), (0x1FFFFFFF, 1), (0x1FFFFFFF, 2), (0x20000000, 65537), (0x2000FFFF, 2), (0x20010000, 1), (0xFFFFFFFF, 1)):
    refuses(one(at, count), "OutsideMemory 84")
says(one(0, 0), ["elf"], 0, image(0, []))


# ---- as many sections and symbols as there may be, and one more
def bytes_each(count):
    start = 84 + 40 * count
    return (header(1, count, 84, 0, 0) + program(start, 0, 0, count, count)
            + b"".join(section(1, 2, k, start + k, 1) for k in range(count)) + bytes(k % 256 for k in range(count)))


says(bytes_each(64), ["elf"], 0, image(0, [(k, bytes([k])) for k in range(64)]))
refuses(bytes_each(65), "TooMany %d" % (84 + 40 * 64))


def symbols(table, strings):
    return (header(0, 4, 52, 0, 0) + section(0, 0, 0, 0, 0) + section(1, 6, 0xC0, 212, 0) + section(2, 0, 0, 212, len(table), 3, 16)
            + section(3, 0, 0, 212 + len(table), len(strings)) + table + strings)


each = symbol(1, 0xC0, 2, 1)
says(symbols(each * 65536, b"\0a\0"), ["names"], 0, b"000000C0 a\n" * 65536)
refuses(symbols(each * 65537, b"\0a\0"), "TooMany %d" % (212 + 16 * 65536), ("names",))
says(symbols(each, b"\0" + b"a" * 1024 + b"\0"), ["names"], 0, b"000000C0 " + b"a" * 1024 + b"\n")
refuses(symbols(each, b"\0" + b"a" * 1025 + b"\0"), "BadName 212", ("names",))
refuses(symbols(each, b"\0a"), "BadName 212", ("names",))
for hidden in (b"\0", b"$x\0", b".L0 \x02\0", b"$" * 2000):
    says(symbols(each, b"\0" + hidden), ["names"], 0, b"")

# ---- too long a file
with open(path, "wb") as f:
    f.truncate(16777217)
r = subprocess.run(PROGRAM + ["elf", path], capture_output=True)
if (r.returncode, r.stdout) != (5, b"refused elf TooLarge\n"):
    fail("too long: %d %r" % (r.returncode, r.stdout))
shutil.rmtree(folder)
print("elf rows: %d answers are as they should be" % tried)
