#!/usr/bin/env python3
"""Makes hostile files, runs every command on them, and looks for an answer that isn't one of those in the documents.

A file is a mutation of an example, or is made by the grammar of an image, a scenario, a source, a script or a memory
text, with some things wrong. Which file it is follows from the seed and its number alone. Of each it is asked:

- every command ends within two seconds, with a status that is documented for it, and not with 7;
- nothing goes to standard error;
- the text is whole: for a refusal one line of a known form, else the command's text, with one `end` line;
- the same bytes are written when it is run again;
- an image that is taken is what `asm` makes of its `disasm`, and what `unmem` makes of its `mem`;
- words in any order are a command, or are answered by the usage line;
- an image, a scenario, a script or a memory text is taken, or refused with the reason and the place, as a second reader
  of its format says.

A command that isn't built yet answers 2 and is passed over. By hand: `python3 tests/hostile.py --files 100000 --jobs 4`.
"""
import argparse
import multiprocessing
import os
import random
import re
import shutil
import signal
import struct
import subprocess
import sys
import tempfile
import time

TOP = os.path.dirname(os.path.dirname(os.path.abspath(__file__)))
PROGRAM = os.path.join(TOP, 'crates', 'clic_tool', 'out', 'clic_tool')
PATIENCE = 2
KINDS = ('image', 'scenario', 'source', 'script', 'memory')

# ---- what may be written

HEX8 = '[0-9A-F]{8}'
NUMBER = '(?:0|[1-9][0-9]*)'
WHY = {
    'image': 'TooLarge|BadMagic 0|TooMany 8|(?:Truncated|OutsideMemory|Overlap|Trailing) N',
    'scenario': 'TooLarge|(?:BadLine|OutOfOrder|TooMany) N',
    'script': 'TooLarge|(?:BadLine|TooMany) N',
    'memory': 'TooLarge|(?:BadByte|TooMany|OutsideMemory|Overlap|Truncated) N',
    'source': 'TooLarge|NoEntry 0|(?:Lex|DoubleLabel|UnknownMnemonic|BadOperands|TooLarge|OutsideMemory|Overlap'
              '|UnknownLabel|OutOfReach) [1-9][0-9]*',
}
TRACE = '(?:i H [0-9A-F]{8}\n|c H [0-9A-F]{4}\n|x H (?:[1-7]|11)\n|q H N\n)'
REGISTERS = 'pc H\n' + ''.join('x%d H\n' % i for i in range(1, 32))
CSRS = ''.join(name + ' H\n' for name in
               ('mstatus', 'mtvec', 'mtvt', 'mscratch', 'mepc', 'mcause', 'mtval', 'mintstatus', 'mintthresh'))
OUTPUT = 'out N\n(?:o (?:[0-9A-F]{2}){1,32}\n)*'
SERVICE = '[sd] N N N\n'
ROW = 'ram 2000[0-9A-F]{3}0 (?:[0-9A-F]{2}|--){16}\n'
BROKEN = ('(?:CsrTouched|RegisterLost|ReadsDispatch|WritesFrame|StackBad|BadTable|NoDispatcher|HardVectored'
          '|EnteredDispatch|Exception N|HaltInHandler) N\n')


RULE = ('(?:TooLong|CodeOutside|NotSpelled|System|Backwards|UnknownTarget|UnknownAddress|StackAccess|RegionAccess'
        '|StackPointer|RegisterChanged)')


def pattern(text):
    """N alone is a number, and H alone has eight hexadecimal digits."""
    return re.compile(re.sub(r'\bH\b', HEX8, re.sub(r'\bN\b', NUMBER, text)).encode())


def whole_report(end, rest):
    return TRACE + '*' + end + 'steps N\n' + rest


RUN_REST = REGISTERS + CSRS + OUTPUT + '(?:' + ROW.replace('|--', '') + ')*'
LINE = '(?:' + TRACE + '|' + SERVICE + ')*'
# The monitor's lines; a script of comments alone writes none.
SAID = ('(?:' + TRACE + '|stop (?:halt|break|budget|vector) H\n|break H\n|breaks full\n|back H\n|no earlier state\n'
        '|mem H (?:[0-9A-F]{2}|[.]{2}){1,16}\n|clic N [0-9A-F]{2} [0-9A-F]{2} [0-9A-F]{2} [0-9A-F]{2}\n'
        '|' + REGISTERS + '|' + CSRS + ')*')
TEXTS = {
    ('run', 0): pattern(whole_report('end halt H\n', RUN_REST)),
    ('run', 1): pattern(whole_report('end budget\n', RUN_REST)),
    ('run', 9): pattern(whole_report('end vector N\n', RUN_REST)),
    ('chain', 0): pattern(LINE + 'end halt H\nsteps N\nbodies N\n' + REGISTERS + 'mstatus H\n' + OUTPUT + '(?:' + ROW + ')*'),
    ('chain', 1): pattern(LINE + 'end budget\nsteps N\n'),
    ('chain', 8): pattern(LINE + 'end broken ' + BROKEN + 'steps N\n'),
    ('symbols', 0): pattern('(?:H [A-Za-z_][A-Za-z0-9_]*\n)*'),
    ('disasm', 0): pattern('[.]entry 0x%s\n(?:[.]org 0x%s\n(?:[a-z.][^\n]*\n)+)*' % (HEX8, HEX8)),
    ('mem', 0): pattern('(?:@H\n(?:[0-9A-F]{2}(?: [0-9A-F]{2}){0,15}\n)+)*'),
    ('monitor', 0): pattern(SAID),
    ('gen', 0): pattern('gen N services N looping N returning N\n'),
    ('gen', 1): pattern('end budget\n'),
    ('gen', 8): pattern('end broken ' + BROKEN),
    ('lint', 0): pattern('yes N\n'),
    ('lint', 11): pattern('no ' + RULE + ' H\n'),
    ('bound', 0): pattern('bound N\n'),
    ('bound', 11): pattern('no (?:BadTable|' + RULE + ') H\n'),
}
USAGE = re.compile(b'usage: clic_tool asm [|] [a-z |]+\n')
REFUSED = {role: pattern('refused %s (?:%s)\n' % (role, why)) for role, why in WHY.items()}
SLOT_TAKEN = re.compile(b'refused image SlotTaken 000000[4-9AB][0-9A-F]\n')


# ---- what files say by a second reader

def read_image(data):
    """The entry and the segments, or the refusal."""
    def field(at):
        return struct.unpack_from('<I', data, at)[0] if at + 4 <= len(data) else None
    if len(data) > 262144:
        return 'TooLarge'
    if len(data) < 4:
        return 'Truncated 0'
    if data[:4] != b'CLC1':
        return 'BadMagic 0'
    entry, count = field(4), field(8)
    if entry is None or count is None:
        return 'Truncated %d' % (4 if entry is None else 8)
    if count > 64:
        return 'TooMany 8'
    at, segments = 12, []
    for _ in range(count):
        base, size = field(at), field(at + 4)
        if base is None or size is None:
            return 'Truncated %d' % (at if base is None else at + 4)
        if size == 0 or not any(low <= base and base + size <= low + 65536 for low in (0, 0x20000000)):
            return 'OutsideMemory %d' % at
        if any(base < other + len(part) and other < base + size for other, part in segments):
            return 'Overlap %d' % at
        if at + 8 + size > len(data):
            return 'Truncated %d' % (at + 8)
        segments.append((base, data[at + 8:at + 8 + size]))
        at += 8 + size
    return 'Trailing %d' % at if at < len(data) else (entry, segments)


PLAIN = re.compile(rb'0|[1-9][0-9]{0,9}')


def whole(part, least, most):
    return PLAIN.fullmatch(part) is not None and least <= int(part) <= most


def is_event(parts, inputs):
    if len(parts) < 3 or not whole(parts[0], 0, 10 ** 9):
        return False
    if parts[1] == b'line':
        return len(parts) == 4 and whole(parts[2], 0, inputs - 1) and not 16 <= int(parts[2]) <= 23 and whole(parts[3], 0, 1)
    least, most = {b'rx': (0, 255), b'pins': (0, 2 ** 32 - 1), b'tick': (1, 65535)}.get(parts[1], (1, 0))
    return len(parts) == 3 and whole(parts[2], least, most)


def read_scenario(data):
    """None, or the refusal."""
    if len(data) > 4194304:
        return 'TooLarge'
    lines = data.split(b'\n')
    inputs, opened, latest, events = 64, False, 0, 0
    for number, line in enumerate(lines, 1):
        if not line or line.startswith(b'#'):
            continue
        parts = line.split(b' ')
        if not opened and parts[0] == b'clic' and len(parts) == 3 and whole(parts[1], 24, 1024) and whole(parts[2], 0, 8):
            opened, inputs = True, int(parts[1])
            continue
        opened = True
        if not is_event(parts, inputs):
            return 'BadLine %d' % number
        if int(parts[0]) < latest:
            return 'OutOfOrder %d' % number
        latest, events = int(parts[0]), events + 1
        if events > 65536:
            return 'TooMany %d' % number
    return None


NUMERAL = re.compile(rb'0|[1-9][0-9]{0,9}|0x[0-9a-fA-F]{1,8}')
RANGES = {b'step': [(1, 10 ** 6)], b'run': [(1, 10 ** 6)], b'break': [(0, 2 ** 32 - 1)], b'regs': [], b'csr': [], b'back': [],
          b'mem': [(0, 2 ** 32 - 1), (1, 256)], b'clic': [(0, 63)], b'line': [(0, 63), (0, 1)]}


def is_command(parts):
    ranges = RANGES.get(parts[0])
    if ranges is None or len(parts) != 1 + len(ranges) or not all(NUMERAL.fullmatch(part) for part in parts[1:]):
        return False
    numbers = [int(part, 0) for part in parts[1:]]
    if parts[0] == b'line' and 16 <= numbers[0] <= 23:
        return False
    return all(least <= number <= most for number, (least, most) in zip(numbers, ranges))


def read_script(data):
    """None, or the refusal."""
    if len(data) > 65536:
        return 'TooLarge'
    commands = 0
    for number, line in enumerate(data.split(b'\n'), 1):
        if line and not line.startswith(b'#'):
            if not is_command(line.split(b' ')):
                return 'BadLine %d' % number
            commands += 1
            if commands > 4096:
                return 'TooMany %d' % number
    return None


BLANKS = b' \t\n\r\f'
DIGITS = b'0123456789abcdefABCDEF'


def read_memory(data, entry):
    """The bytes of the image file, or the refusal."""
    if len(data) > 1048576:
        return 'TooLarge'
    place, fresh, segments, taken, at, end = 0, True, [], set(), 0, len(data)
    while at < end:
        byte = data[at]
        if byte in BLANKS:
            at += 1
            continue
        if byte == 0x2F:
            if at + 1 == end:
                return 'Truncated %d' % end
            if data[at + 1] not in b'/*':
                return 'BadByte %d' % (at + 1)
            is_line = data[at + 1] == 0x2F
            close = data.find(b'\n' if is_line else b'*/', at + 2)
            if close < 0 and not is_line:
                return 'Truncated %d' % end
            at = end if close < 0 else close + (1 if is_line else 2)
            continue
        is_address = byte == 0x40
        if is_address:
            at += 1
        elif byte not in DIGITS:
            return 'BadByte %d' % at
        elif fresh and len(segments) == 64:
            return 'TooMany %d' % at
        elif not (place < 0x10000 or 0x20000000 <= place < 0x20010000):
            return 'OutsideMemory %d' % at
        elif place in taken:
            return 'Overlap %d' % at
        digits = b''
        while at < end and (data[at] in DIGITS and len(digits) < (8 if is_address else 2) or data[at] == 0x5F and digits):
            digits += data[at:at + 1] if data[at] != 0x5F else b''
            at += 1
        if not digits and at == end:
            return 'Truncated %d' % end
        if not digits or (at < end and data[at] not in BLANKS + b'/'):
            return 'BadByte %d' % at
        value = int(digits, 16)
        if is_address:
            place, fresh = value, True
            continue
        if fresh:
            segments.append((place, bytearray()))
        segments[-1][1].append(value)
        taken.add(place)
        place, fresh = place + 1, False
    return b'CLC1' + struct.pack('<II', entry, len(segments)) + b''.join(
        struct.pack('<II', base, len(part)) + part for base, part in segments)


# ---- how files are made

WORDS = (0, 1, 2, 3, 4, 0x40, 0x41, 65, 64, 255, 256, 0x7FFF, 0xFFFE, 0xFFFF, 0x10000, 0x10001, 0x02000000, 0x02001000,
         0x1FFFFFFF, 0x20000000, 0x2000FFFC, 0x2000FFFF, 0x20010000, 0x10000000, 0x10001000, 0x10002000, 0x10003000,
         0x7FFFFFFF, 0x80000000, 0xFFFFFFFE, 0xFFFFFFFF)
NUMBERS = (b'0', b'1', b'-1', b'00', b'16', b'23', b'24', b'63', b'64', b'255', b'256', b'1000000000', b'1000000001',
           b'65535', b'65536', b'2047', b'2048', b'-2048', b'-2049', b'4294967295', b'4294967296', b'-2147483648',
           b'-2147483649', b'18446744073709551616', b'0x', b'0X1', b'0x0', b'0xFFFFFFFF', b'0x100000000', b'0x10000',
           b'0x20000000', b'99999999999999999999', b'+1', b'1_0')
FIXED = ['00000073', '00100073', '30200073', '10500073', '0FF0000F', '30046073', '30047073', '34546573', '34911173']
MATCHES = ('37 17 6F 67 63 1063 4063 5063 6063 7063 3 1003 2003 4003 5003 23 1023 2023 13 2013 3013 4013 6013 7013 1013 '
           '5013 40005013 33 40000033 1033 2033 3033 4033 5033 40005033 6033 7033 2000033 2001033 2002033 2003033 2004033 '
           '2005033 2006033 2007033 1073 2073 3073 5073 6073 7073').split()
MNEMONICS = ('lui auipc jal jalr beq bne blt bge bltu bgeu lb lh lw lbu lhu sb sh sw addi slti sltiu xori ori andi slli '
             'srli srai add sub sll slt sltu xor srl sra or and mul mulh mulhsu mulhu div divu rem remu fence ecall ebreak '
             'mret wfi csrrw csrrs csrrc csrrwi csrrsi csrrci c.addi4spn c.lw c.sw c.nop c.addi c.jal c.li c.addi16sp '
             'c.lui c.srli c.srai c.andi c.sub c.xor c.or c.and c.j c.beqz c.bnez c.slli c.lwsp c.jr c.mv c.ebreak c.jalr '
             'c.add c.swsp nop mv li la j jr ret beqz bnez csrr csrw csrsi csrci').split()
REGISTER_NAMES = ('zero ra sp gp tp t0 t1 t2 s0 s1 fp a0 a1 a2 a3 a4 a5 a6 a7 s2 s3 s11 t3 t6 x0 x1 x8 x15 x31 x32 X1 '
                  'a8').split()
CSR_NAMES = ('mstatus misa mie mtvec mtvt mscratch mepc mcause mtval mip mnxti mintthresh mscratchcsw mscratchcswl '
             'mintstatus mhartid').split()
CSR_NUMBERS = (0x300, 0x301, 0x304, 0x305, 0x307, 0x340, 0x341, 0x342, 0x343, 0x344, 0x345, 0x347, 0x348, 0x349, 0xFB1,
               0xF14)


def instruction(chance):
    """The bytes of an instruction, mostly one that some row spells."""
    pick = chance.random()
    if pick < 0.1:
        return struct.pack('<I', int(chance.choice(FIXED), 16))
    if pick < 0.35:
        return struct.pack('<H', chance.getrandbits(16))
    if pick < 0.4:
        return struct.pack('<I', chance.getrandbits(32))
    match = int(chance.choice(MATCHES), 16)
    opcode = match & 0x7F
    mask = 0x7F if opcode in (0x37, 0x17, 0x6F) else 0x707F
    if opcode == 0x33 or (opcode == 0x13 and match & 0x3000 == 0x1000):
        mask = 0xFE00707F
    word = match | (chance.getrandbits(32) & ~mask & 0xFFFFFFFF)
    if opcode == 0x73:
        word = (word & 0xFFFFF) | chance.choice(CSR_NUMBERS) << 20
    if opcode in (0x03, 0x23, 0x63) and chance.random() < 0.7:
        word &= 0x01FFFFFF if opcode != 0x63 else 0x7FFFFFFF
    if opcode == 0x6F and chance.random() < 0.7:
        word &= 0x07F00FFF
    return struct.pack('<I', word)


# Stores to the controller and to devices, so that inputs interrupt and devices answer.
def poke(chance):
    at = chance.choice((0x02000000, 0x02001000, 0x02001000, 0x02001000, 0x10000000, 0x10001000, 0x10002000, 0x10003000))
    offset = chance.randrange(0, 0x60)
    value = chance.choice((0, 1, 2, 3, 4, 6, 8, 0x40, 0x80, 0xC0, 0xFF))
    kind = chance.choice((0x23, 0x23, 0x2023, 0x1023))
    words = (at & 0xFFFFF000 | 0x337, value << 20 | 0x393,
             (offset >> 5) << 25 | 7 << 20 | 6 << 15 | kind & 0x7000 | (offset & 31) << 7 | 0x23)
    return struct.pack('<3I', *words)


def armed(chance):
    """Makes some inputs edge or level, with a level, and enables them: lui t2; addi t2, t2, 256; sw t2, 4i(t1)."""
    words = [0x02001337]
    for _ in range(chance.randrange(1, 6)):
        number = chance.choice((3, 5, 7, 9, 11, 16, 17, 18))
        value = chance.choice((0x00, 0x40, 0x80, 0xC0, 0xFF)) << 24 | chance.choice((0, 2, 2, 2, 4, 6, 1, 3)) << 16
        words += [value & 0xFFFFF000 | 0x3B7, 0x10038393,
                  (4 * number >> 5) << 25 | 7 << 20 | 6 << 15 | 0x2000 | (4 * number & 31) << 7 | 0x23]
    return struct.pack('<%dI' % len(words), *words)


# What stands at 0x40: it goes on behind what raised it; it claims the interrupt and goes back; it goes back at once; the
# looping dispatcher.
HANDLERS = ((0x341022F3, 0x00428293, 0x34129073, 0x30200073), (0x34546573, 0x30200073), (0x30200073,),
            (0x34911173, 0xFE010113, 0x00112023, 0x00A12223, 0x00B12423, 0x34202573, 0x00A12623, 0x34102573, 0x00A12823,
             0x34546573, 0x02050063, 0x00052583, 0x000580E7, 0x30047073, 0x00C12503, 0x34251073, 0x34546573, 0xFE0514E3,
             0x30047073, 0x01012503, 0x34151073, 0x00C12503, 0x34251073, 0x00012083, 0x00412503, 0x00812583, 0x02010113,
             0x34911173, 0x30200073))


def program(chance):
    parts = [b'']
    if chance.random() < 0.7:
        # lui sp; li t0, 64; csrw mtvec; li t0, 256; csrw mtvt; csrw mscratch, sp
        parts.append(struct.pack('<6I', 0x20010137, 0x04000293, 0x30529073, 0x10000293, 0x30729073, 0x34011073))
        parts.append(armed(chance))
    for _ in range(chance.randrange(0, 4)):
        parts.append(poke(chance))
    if chance.random() < 0.7:
        parts.append(struct.pack('<I', 0x30046073))
    for _ in range(chance.choice((0, 1, 2, 4, 8, 40))):
        parts.append(poke(chance) if chance.random() < 0.1 else instruction(chance))
    if chance.random() < 0.5:
        parts.append(struct.pack('<2I', 0x100032B7, 0x0002A023))
    return b''.join(parts)


def image_by_grammar(chance):
    start = 0x200 if chance.random() < 0.85 else chance.choice((0xC0, 0xBF, 0, 0x40, 0xFFFE, 0x20000000))
    segments = [(start, program(chance))]
    if chance.random() < 0.6:
        words = chance.choice(HANDLERS)
        segments.append((0x40, struct.pack('<%dI' % len(words), *words)))
    # Handlers: `ret` at 0x1F0, and one that makes a few instructions first.
    segments.append((0x1F0, struct.pack('<I', 0x00008067)))
    front = b''.join(instruction(chance) for _ in range(chance.randrange(0, 5)))
    segments.append((0x1000, front + struct.pack('<I', 0x00008067)))
    if chance.random() < 0.8:
        words = [chance.choice((0x1F0, 0x1F0, 0x1000, 0x1000, 0x200, 0, 0x74, 0x20000001)) for _ in range(24)]
        segments.append((0x100, struct.pack('<24I', *words)))
    for _ in range(chance.choice((0, 0, 0, 0, 0, 0, 0, 1, 1, 2, 2, 5, 5, 59, 60))):
        base = chance.choice((0x2000, 0x20000000)) + chance.randrange(0, 0x380) * 64
        segments.append((base, bytes(chance.getrandbits(8) for _ in range(chance.randrange(1, 40)))))
    chance.shuffle(segments)
    entry = start if chance.random() < 0.9 else chance.choice((start + 1, chance.choice(WORDS)))
    out = b'CLC1' + struct.pack('<II', entry, len(segments))
    for base, data in segments:
        size = len(data) if chance.random() < 0.99 else chance.choice(WORDS)
        base = base if chance.random() < 0.99 else chance.choice(WORDS)
        out += struct.pack('<II', base, size) + data
    return out + (b'\0' if chance.random() < 0.03 else b'')


def scenario_by_grammar(chance):
    lines, count, inputs = [], 0, 64
    wrong = chance.random() < 0.5
    if chance.random() < 0.3:
        inputs = chance.choice((24, 25, 63, 64, 65, 128, 1024))
        lines.append(b'clic %d %d' % (inputs, chance.randrange(0, 9)))
    for _ in range(chance.choice((0, 1, 3, 10, 40, 400))):
        count += chance.choice((0, 0, 1, 2, 3, 10, 20))
        which = chance.randrange(5)
        if which < 2:
            number = chance.choice((3, 5, 7, 9, 11, chance.choice((0, 15, 24, inputs - 1))))
            line = b'%d line %d %d' % (count, number, chance.randrange(2))
        else:
            line = b'%d %s %d' % (count, (b'rx', b'pins', b'tick')[which - 2], chance.randrange(1, 256))
        if wrong and chance.random() < 0.02:
            line = chance.choice((b'', b'# x', line + b' ', line + b'\r', b' ' + line, line.replace(b' ', b'\t'), b'0' + line,
                                  line.replace(b'line', b'LINE'), b'0 rx 0', b'clic 64 8', numbered(chance, line)))
        lines.append(line)
    return b'\n'.join(lines) + chance.choice((b'', b'\n', b'\n\n', b'\n#'))


def numbered(chance, line):
    """The line with one of its numbers changed."""
    spots = [spot.span() for spot in re.finditer(rb'-?[0-9][0-9A-Za-z]*', line)]
    if not spots:
        return line
    start, end = chance.choice(spots)
    return line[:start] + chance.choice(NUMBERS) + line[end:]


def source_by_grammar(chance):
    labels = ['a', 'loop', 'main', '_x', 'ra', 'nop', 'L%d' % chance.randrange(99)]
    wrong = chance.choice((0, 0, 0.02, 0.2))

    def number(low, high):
        value = chance.choice((low, high, 0, 1, chance.randint(low, high)))
        if chance.random() < wrong:
            return chance.choice(NUMBERS).decode()
        return chance.choice(('%d' % value, ('-' if value < 0 else '') + '0x%x' % abs(value)))

    def operand(kind):
        if chance.random() < wrong:
            kind = chance.choice('rtcniu(')
        if kind == 'r':
            return chance.choice(REGISTER_NAMES[:29] if chance.random() >= wrong else REGISTER_NAMES)
        if kind == 's':
            return chance.choice(('s0', 's1', 'a0', 'a5', 'x8', 'x15'))
        if kind == 't':
            return chance.choice(labels) if chance.random() < 0.8 else number(0, 4094)
        if kind == 'c':
            return chance.choice(CSR_NAMES) if chance.random() < 0.8 else number(0, 4095)
        if kind == 'n':
            return number(-32, 31)
        if kind == 'u':
            return number(0, 31)
        return number(-512, 508) + '(' + chance.choice(REGISTER_NAMES[:29]) + ')'

    shapes = {}
    for names, shape in (('lui auipc', 'ru'), ('jal', 'rt'), ('jalr lb lh lw lbu lhu sb sh sw', 'r('),
                         ('beq bne blt bge bltu bgeu', 'rrt'), ('addi slti sltiu xori ori andi', 'rrn'),
                         ('slli srli srai', 'rru'), ('csrrw csrrs csrrc', 'rcr'), ('csrrwi csrrsi csrrci', 'rcu'),
                         ('c.addi c.li c.andi c.srli c.srai c.slli c.lui', 'su'), ('c.sub c.xor c.or c.and c.mv c.add', 'ss'),
                         ('c.j c.jal j', 't'), ('c.beqz c.bnez beqz bnez', 'st'), ('c.jr c.jalr jr', 'r'), ('mv', 'rr'),
                         ('li', 'rn'), ('la', 'rt'), ('csrr', 'rc'), ('csrw', 'cr'), ('csrsi csrci', 'cu')):
        for name in names.split():
            shapes[name] = shape
    for name in 'ecall ebreak mret wfi fence nop ret c.nop c.ebreak'.split():
        shapes[name] = ''

    lines = []
    for _ in range(chance.choice((1, 3, 10, 40))):
        line, pick = '', chance.random()
        if labels and chance.random() < 0.2:
            line = labels[chance.randrange(len(labels))] + ':' + chance.choice(('', ' ', '\t'))
        if pick < 0.1:
            line += '.org ' + number(0, 0xFFF)
        elif pick < 0.2:
            line += chance.choice(('.word ', '.half ', '.byte ')) + number(0, 255)
        elif pick < 0.24:
            line += '.zero ' + number(1, 300)
        elif pick < 0.9:
            name = chance.choice(MNEMONICS)
            line += (name + ' ' + ', '.join(operand(kind) for kind in shapes.get(name, 'rrr'))).rstrip()
        if chance.random() < wrong:
            line = chance.choice((line + ' #', line + '\r', line + '\r\r', line + ',', line.replace(' ', '\t'), line.upper(),
                                  line + ' \x01', line.replace(',', ''), 'x' + line, line + ' ' + '1 ' * chance.randrange(20)))
        lines.append(line)
    if chance.random() < 0.9:
        lines.insert(chance.randrange(len(lines) + 1), '.entry ' + chance.choice(('0', 'main', number(0, 0xFFFF))))
    if wrong == 0:
        # Each label that is named stands somewhere, and once.
        kept, seen = [], set()
        for line in lines:
            name = line.split(':')[0]
            if ':' in line and name in seen:
                line = line.split(':', 1)[1]
            elif ':' in line:
                seen.add(name)
            kept.append(line)
        lines = kept + [name + ':' for name in labels if name not in seen]
    return '\n'.join(lines).encode('latin-1') + chance.choice((b'', b'\n', b'\r\n'))


def script_by_grammar(chance):
    lines = []
    wrong = chance.random() < 0.4
    for _ in range(chance.choice((1, 5, 20, 60))):
        line = chance.choice((
            b'step %d' % chance.randrange(1, 60), b'run %d' % chance.randrange(1, 500), b'back', b'regs', b'csr',
            b'break 0x%x' % (chance.randrange(0, 0x200) * 2),
            b'line %d %d' % (chance.choice((3, 5, 7, 9, 11)), chance.randrange(2)), b'clic %d' % chance.randrange(64),
            b'mem 0x%X %d' % (chance.choice(WORDS), chance.randrange(1, 257))))
        if wrong and chance.random() < 0.04:
            line = chance.choice((b'', b'#', line + b' ', line + b'\r', line.upper(), b'jump', line.replace(b' ', b'  '),
                                  numbered(chance, line)))
        lines.append(line)
    return b'\n'.join(lines) + chance.choice((b'', b'\n'))


def memory_by_grammar(chance):
    out = []
    wrong = chance.choice((0, 0, 0.01, 0.1))
    for _ in range(chance.choice((1, 5, 30, 200))):
        pick = chance.random()
        if pick < 0.12:
            piece = b'@%x' % (chance.choice((0, 0x20000000)) + chance.randrange(0, 0x4000) * 4)
        elif pick < 0.18:
            piece = chance.choice((b'// a comment\n', b'/* a\n comment */', b'/**/', b'/***/'))
        else:
            piece = chance.choice((b'%x', b'%X', b'%02x', b'%02X_', b'%X__')) % chance.randrange(256)
        if chance.random() < wrong:
            piece = chance.choice((b'@', b'/', b'x', b'1z', b'123', b'@_1', b'_', b'\0', b'\v', b'/*', b'@123456789',
                                   b'@FFFFFFFF', b'@FFFF 1 2', b'@20010000', b'\xff', piece + b'@0', piece + b'/'))
        out.append(piece)
        if chance.random() >= wrong or wrong == 0:
            out.append(chance.choice((b' ', b' ', b'\n', b'\t', b'\r\n', b'\f')))
    return b''.join(out)


GRAMMARS = {'image': image_by_grammar, 'scenario': scenario_by_grammar, 'source': source_by_grammar,
            'script': script_by_grammar, 'memory': memory_by_grammar}


def mutated(chance, pool):
    """One of the files, changed in some places."""
    kind, data = chance.choice(pool)
    for _ in range(chance.choice((1, 1, 1, 2, 3, 8))):
        at = chance.randrange(len(data) + 1)
        end = min(len(data), at + chance.choice((1, 1, 2, 4, 16, 200)))
        how = chance.randrange(12)
        if how == 0 and at < len(data):
            data = data[:at] + bytes([data[at] ^ 1 << chance.randrange(8)]) + data[at + 1:]
        elif how == 1:
            data = data[:at] + bytes([chance.choice((0, 9, 10, 13, 32, 35, 44, 58, 64, 95, 127, 128, 255))]) + data[at + 1:]
        elif how == 2:
            data = data[:at] + data[end:]
        elif how == 3:
            data = data[:at] + data[at:end] * chance.choice((2, 3, 20)) + data[end:]
        elif how == 4:
            data = data[:at]
        elif how == 5:
            data = data[:at] + bytes(chance.getrandbits(8) for _ in range(chance.randrange(1, 9))) + data[at:]
        elif how == 6:
            other = chance.choice(pool)[1]
            cut = chance.randrange(len(other) + 1)
            data = data[:at] + other[cut:cut + chance.choice((4, 40, 4000))] + data[at:]
        elif how == 7 and kind == 'image':
            at -= at % 4
            data = data[:at] + struct.pack('<I', chance.choice(WORDS)) + data[at + 4:]
        elif how == 8 and kind == 'image':
            data = data[:4] + struct.pack('<II', chance.choice(WORDS), chance.randrange(0, 4)) + data[12:]
        elif kind != 'image':
            lines = data.split(b'\n')
            line = chance.randrange(len(lines))
            if how == 9:
                lines[line] = numbered(chance, lines[line])
            elif how == 10:
                lines.insert(chance.randrange(len(lines) + 1), lines[line])
            else:
                other = chance.randrange(len(lines))
                lines[line], lines[other] = lines[other], lines[line]
            data = b'\n'.join(lines)
    return kind, data[:300000]


def made(chance, pool):
    if chance.random() < 0.4:
        return mutated(chance, pool)
    kind = chance.choice(KINDS)
    data = GRAMMARS[kind](chance)
    return mutated(chance, [(kind, data)]) if chance.random() < 0.2 else (kind, data)


# ---- how they are tried

class Wrong(Exception):
    pass


class Late(Exception):
    pass


def is_late(*_):
    raise Late


class Trial:
    """One file in the present folder, and the commands on it."""

    def __init__(self, there):
        self.there = there
        self.latest = ''

    def put(self, name, data):
        with open(name, 'wb') as file:
            file.write(data)
        return name

    def once(self, words):
        actions = [(os.POSIX_SPAWN_OPEN, 0, os.devnull, os.O_RDONLY, 0)]
        for place, name in ((1, 'written'), (2, 'complaint')):
            actions.append((os.POSIX_SPAWN_OPEN, place, name, os.O_WRONLY | os.O_CREAT | os.O_TRUNC, 0o600))
        child = os.posix_spawn(PROGRAM, ['clic_tool'] + words, {}, file_actions=actions)
        signal.setitimer(signal.ITIMER_REAL, PATIENCE)
        try:
            status = os.waitstatus_to_exitcode(os.waitpid(child, 0)[1])
        except Late:
            os.kill(child, signal.SIGKILL)
            os.waitpid(child, 0)
            raise Wrong('no end within %d seconds' % PATIENCE)
        finally:
            signal.setitimer(signal.ITIMER_REAL, 0)
        if os.path.getsize('complaint'):
            raise Wrong('standard error is %r' % open('complaint', 'rb').read()[:200])
        with open('written', 'rb') as file:
            return status, file.read()

    def asks(self, roles, words, form=None):
        """Runs the words twice. The status and the text, which are as they are documented."""
        command = words[0]
        self.latest = ' '.join(words)
        status, text = self.once(words)
        if (status, text) != self.once(words):
            raise Wrong('another text or status the second time')
        if status == 5:
            known = any(REFUSED[role].fullmatch(text) for role in roles)
            if not known and not (command == 'chain' and SLOT_TAKEN.fullmatch(text)):
                raise Wrong('status 5 with ' + repr(text[:200]))
        elif form == 'image':
            if status != 0 or isinstance(read_image(text), str):
                raise Wrong('status %d with %d bytes that are no image' % (status, len(text)))
        elif (form or command, status) not in TEXTS:
            raise Wrong('status %d with %r' % (status, text[:200]))
        elif not TEXTS[form or command, status].fullmatch(text):
            raise Wrong('status %d with another form of text: ...%r' % (status, text[-300:]))
        return status, text

    def reads_as(self, role, status, text, wanted):
        """What a second reader says of the file: a refusal or not."""
        first = b'refused %s ' % role.encode()
        told = text[len(first):-1].decode() if status == 5 and text.startswith(first) else None
        if told != wanted and not (told or '').startswith('SlotTaken'):
            raise Wrong('the %s is %s, and by the second reader %s' % (role, told or 'taken', wanted or 'taken'))

    def chains(self, roles, image, scenario, bound, trace):
        """Both chains, with direct services and without. Where both end, and not by the bound, they differ in their steps alone."""
        if 'chain' not in self.there:
            return []
        ends = self.both(roles, image, scenario, bound, trace)
        direct = self.both(roles, image, scenario, bound, trace + ['--direct'])
        for soft, other in zip(ends, direct):
            if b'HardVectored' in other[1]:
                raise Wrong('HardVectored with --direct')
            if soft[0] in (0, 1, 8) and b'HardVectored' not in soft[1] and soft != other:
                raise Wrong('another text with --direct where no hardware-vectored input ended the chain')
        return ends + direct

    def both(self, roles, image, scenario, bound, options):
        """The chain under each dispatcher."""
        ends = [self.asks(roles, ['chain', image, scenario, dispatcher, str(bound)] + options)
                for dispatcher in ('looping', 'returning')]
        for status, text in ends:
            steps = re.search(rb'^steps ([0-9]+)$', text, re.M)
            if steps and (int(steps.group(1)) > bound or (status == 1 and int(steps.group(1)) != bound)):
                raise Wrong('%s steps with the bound %d and status %d' % (steps.group(1).decode(), bound, status))
        if all(status in (0, 8) for status, _ in ends):
            one, two = (re.sub(rb'^(?:steps|[icxq]) .*\n', b'', text, flags=re.M) for _, text in ends)
            if one != two:
                raise Wrong('the dispatchers differ in more than their steps')
        return ends

    def as_image(self, name, data, chance):
        read = read_image(data)
        wanted = read if isinstance(read, str) else None
        bound = chance.choice((0, 1, 10, 100, 1000, 3000))
        self.put('with.txt', scenario_by_grammar(chance))
        trace = ['--trace'] if chance.random() < 0.5 else []
        status, text = self.asks(('image', 'scenario'), ['run', name, 'with.txt', str(bound)] + trace)
        self.reads_as('image', status, text, wanted)
        if status in (0, 1, 9):
            steps = int(re.search(rb'^steps ([0-9]+)$', text, re.M).group(1))
            if steps > bound or (status == 1 and steps != bound):
                raise Wrong('%d steps with the bound %d and status %d' % (steps, bound, status))
            if trace and len(re.findall(rb'^[icxq] ', text, re.M)) != steps:
                raise Wrong('another number of lines in the trace than steps')
        for command in ('disasm', 'mem'):
            status, text = self.asks(('image',), [command, name])
            self.reads_as('image', status, text, wanted)
            if status != 0:
                continue
            self.put('again', text)
            back = ['asm', 'again'] if command == 'disasm' else ['unmem', 'again', str(read[0])]
            status, text = self.asks((), back, 'image')
            if text != data:
                raise Wrong('%s of %s gives another image' % (back[0], command))
        for status, text in self.chains(('image', 'scenario'), name, 'with.txt', bound, trace):
            self.reads_as('image', status, text, wanted)
        region = [str(0x20000000 + chance.choice((0, 0x8000, 0x10000))), str(0x20010000)]
        for words in (['lint', name, str(chance.choice((0, 0x200, 0x254, chance.randrange(0x10000))))] + region,
                      ['bound', name] + region + [str(chance.choice((0, 0x40, 0x100, 0xFFC0))),
                                                  chance.choice(('3:255,5:127', '0:1', '16:255,18:127'))]):
            status, text = self.asks(('image',), words)
            self.reads_as('image', status, text, wanted)
        if 'monitor' in self.there:
            self.put('with.script', script_by_grammar(chance))
            status, text = self.asks(('image', 'script'), ['monitor', name, 'with.script'])
            self.reads_as('image', status, text, wanted)

    def as_scenario(self, name, data, chance):
        wanted = read_scenario(data)
        image = chance.choice(('blink.img', 'echo.img', 'interrupt.img', 'first.img'))
        bound = str(chance.choice((0, 30, 300, 3000)))
        status, text = self.asks(('scenario',), ['run', image, name, bound])
        self.reads_as('scenario', status, text, wanted)
        for status, text in self.chains(('scenario',), 'interrupt.img', name, int(bound), []):
            self.reads_as('scenario', status, text, wanted)

    def as_source(self, name, chance):
        status, text = self.asks(('source',), ['asm', name], 'image')
        other, labels = self.asks(('source',), ['asm', name, '--symbols'], 'symbols')
        if status != other or (status == 5 and text != labels):
            raise Wrong('the image and the labels end otherwise')
        if status == 0:
            self.put('made.img', text)
            self.as_image('made.img', text, chance)

    def as_memory(self, name, data, chance):
        entry = chance.choice(('0', '1', '512', '4294967295'))
        status, text = self.asks(('memory',), ['unmem', name, entry], 'image')
        wanted = read_memory(data, int(entry))
        self.reads_as('memory', status, text, wanted if isinstance(wanted, str) else None)
        if status == 0 and text != wanted:
            raise Wrong('another image than by the second reader')
        if status == 0:
            self.put('made.img', text)
            self.as_image('made.img', text, chance)

    def as_script(self, name, data, chance):
        # A script may ask for more steps than two seconds have.
        asked = sum(int(number, 0) for number in re.findall(rb'^(?:step|run) (0x[0-9a-fA-F]{1,8}|[1-9][0-9]*)$', data, re.M))
        if 'monitor' in self.there and asked <= 3000000:
            image = chance.choice(('blink.img', 'first.img', 'interrupt.img'))
            status, text = self.asks(('script',), ['monitor', image, name])
            self.reads_as('script', status, text, read_script(data))

    def as_words(self, chance):
        """Words in any order: most are no command."""
        pool = ['run', 'asm', 'disasm', 'mem', 'unmem', 'chain', 'monitor', 'gen', 'lint', '--trace', '--symbols', '--', '-',
                '', '-0', '--help', '-h', '--trace=1', '--direct', 'looping', 'returning', 'file', 'first.img', 'no.img',
                'with.txt', '0', '5', '+7', '1000000001', '4294967296', '\u00c0', 'a b']
        words = [chance.choice(pool) for _ in range(chance.randrange(0, 7))]
        if chance.random() < 0.7:
            words.insert(0, chance.choice(pool[:9]))
        self.latest = ' '.join(map(repr, words))
        status, text = self.once(words)
        if (status, text) != self.once(words):
            raise Wrong('another text or status the second time')
        told = {2: USAGE, 3: re.compile(b'absent (?:%s)\n' % b'|'.join(re.escape(word.encode()) for word in words)),
                5: re.compile(b'refused (?:%s) .*\n' % b'|'.join(role.encode() for role in WHY))}
        if status in (4, 6, 7, 12) or status > 12 or status < 0 or (status in told and not told[status].fullmatch(text)):
            raise Wrong('status %d with %r' % (status, text[:200]))

    def as_number(self, chance):
        if 'gen' in self.there:
            self.asks((), ['gen', str(chance.choice((0, 1, 2, chance.randrange(300))))])

    def tries(self, kind, data, chance):
        """The file in each of its roles."""
        self.put('file', data)
        self.as_image('file', data, chance)
        self.as_scenario('file', data, chance)
        self.as_source('file', chance)
        self.as_memory('file', data, chance)
        self.as_script('file', data, chance)
        self.as_words(chance)
        if chance.random() < 0.05:
            self.as_number(chance)


def examples():
    """The examples and the rows, each with its kind."""
    kinds = {'.img': 'image', '.txt': 'scenario', '.report': 'scenario', '.s': 'source', '.script': 'script', '.mem': 'memory'}
    found = []
    for folder in ('examples', 'tests/rows'):
        for name in sorted(os.listdir(os.path.join(TOP, folder))):
            kind = kinds.get(os.path.splitext(name)[1])
            if kind:
                with open(os.path.join(TOP, folder, name), 'rb') as file:
                    found.append((kind, file.read()))
    return found


def commands():
    """The commands that are built, beside those that always were."""
    def built(words):
        return subprocess.run([PROGRAM] + words, stdout=subprocess.DEVNULL).returncode != 2
    rest = {'chain': ['chain', 'no.img', 'no.txt', 'looping', '0'], 'monitor': ['monitor', 'no.img', 'no.txt'],
            'gen': ['gen', '0']}
    return {name for name, words in rest.items() if built(words)}


def some(task):
    """Tries the files from one number to another. How many there were, and what was wrong."""
    seed, first, last, until, pool, there = task
    folder = tempfile.mkdtemp()
    found, number = [], first
    os.chdir(folder)
    signal.signal(signal.SIGALRM, is_late)
    try:
        for name in ('examples/blink.img', 'examples/echo.img', 'tests/rows/interrupt.img', 'examples/first.img'):
            shutil.copy(os.path.join(TOP, name), folder)
        while number < last and time.monotonic() < until:
            chance = random.Random('%d %d' % (seed, number))
            kind, data = made(chance, pool)
            trial = Trial(there)
            try:
                trial.tries(kind, data, chance)
            except Wrong as wrong:
                kept = tempfile.mkdtemp(prefix='hostile-%d-' % number)
                shutil.copytree(folder, kept, dirs_exist_ok=True)
                found.append('file %d, as %s: %s: %s (kept in %s)' % (number, kind, trial.latest, wrong, kept))
            number += 1
    finally:
        os.chdir(TOP)
        shutil.rmtree(folder)
    return number - first, found


def main():
    global PROGRAM, PATIENCE
    parser = argparse.ArgumentParser(description=__doc__.split('\n')[0])
    parser.add_argument('--files', type=int, default=2000, help='how many files at most')
    parser.add_argument('--seconds', type=float, help='how long at most; 10 where no number of files is named')
    parser.add_argument('--seed', type=int, default=1)
    parser.add_argument('--first', type=int, default=0, help='the number of the first file')
    parser.add_argument('--jobs', type=int, default=2)
    parser.add_argument('--program', help='another clic_tool, that is built')
    parser.add_argument('--patience', type=float, default=PATIENCE, help='seconds that a command has; more on a loaded machine')
    words = parser.parse_args()
    PATIENCE = words.patience
    if words.program:
        PROGRAM = os.path.abspath(words.program)
    elif not shutil.which('rt'):
        print('hostile: skipped, since there is no rt')
        return 0
    else:
        subprocess.run([os.path.join(TOP, 'clic_tool')], stdout=subprocess.DEVNULL) # so that it is built
    seconds = words.seconds or (10 if '--files' not in ' '.join(sys.argv) else 10 ** 6)
    until = time.monotonic() + seconds
    pool, there = examples(), commands()
    share = 25
    last = words.first + words.files
    tasks = [(words.seed, at, min(at + share, last), until, pool, there) for at in range(words.first, last, share)]
    tried, wrong = 0, 0
    with multiprocessing.Pool(words.jobs) as workers:
        for count, found in workers.imap_unordered(some, tasks):
            if (tried + count) // 10000 > tried // 10000:
                print('hostile: %d files' % (tried + count), flush=True)
            tried += count
            wrong += len(found)
            for line in found:
                print('hostile: ' + line, file=sys.stderr, flush=True)
    passed = sorted({'chain', 'gen', 'monitor'} - there)
    print('hostile: %d files, %d wrong%s' % (tried, wrong, '; not built yet: ' + ' '.join(passed) if passed else ''))
    return 1 if wrong or not tried else 0


if __name__ == '__main__':
    sys.exit(main())
