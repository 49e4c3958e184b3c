#!/usr/bin/env python3
"""Each way to break the chain's convention once, under both dispatchers, with the text that was worked out by hand; and
with direct services, once without a hardware-vectored input, and then each way to break it in a direct service.

A foreground of 27 instructions sets up the table, mtvec, the controller and five inputs, sets MIE with its 23rd, and
halts. Each case changes some of its lines, or the handler of input 3, which is raised after 23 instructions unless the
case says another count.
"""

import pathlib
import subprocess
import sys
import tempfile

TOP = pathlib.Path(__file__).resolve().parent.parent
PROGRAM = TOP / "crates" / "clic_tool" / "out" / "clic_tool"

FOREGROUND = """lui sp, 0x20010
li t0, 64
csrw mtvec, t0
li t0, 256
csrw mtvt, t0
lui t1, 0x2000
li t0, 4
sb t0, 0(t1)
lui t1, 0x2001
lui t0, 0x40020
addi t0, t0, 256
sw t0, 12(t1)
sw t0, 20(t1)
lui t0, 0xC0020
addi t0, t0, 256
sw t0, 28(t1)
lui t0, 0x20
addi t0, t0, 256
sw t0, 36(t1)
lui t0, 0x80020
addi t0, t0, 256
sw t0, 44(t1)
csrsi mstatus, 8
nop
nop
lui t0, 0x10003
sw zero, 0(t0)""".split("\n")

SERVICE = "s 3 127 1\n"


# name, changed lines of the foreground by number, the handler, when input 3 is raised, what was entered, the kind, bodies, steps
CASES = [
    ("a handler reads a control register", {}, ["csrr a0, mcause", "ret"], 23, SERVICE, "CsrTouched", 23, 37),
    ("the foreground reads a control register", {24: "csrr t0, mstatus"}, ["ret"], None, "", "CsrTouched", 23, 23),
    ("the foreground goes back from no trap", {24: "mret"}, ["ret"], None, "", "CsrTouched", 23, 23),
    ("t0 is lost", {}, ["addi t0, t0, 1", "ret"], 23, SERVICE, "RegisterLost", 25, 39),
    ("sp is lost", {}, ["addi sp, sp, -16", "ret"], 23, SERVICE, "RegisterLost", 25, 39),
    ("a byte of the slot is read", {}, ["lw a0, 64(zero)", "ret"], 23, SERVICE, "ReadsDispatch", 23, 37),
    ("a dead byte is read", {}, ["lw t0, 12(sp)", "ret"], 23, SERVICE, "ReadsDispatch", 23, 37),
    ("the frame's last byte is stored to", {}, ["sb zero, 31(sp)", "ret"], 23, SERVICE, "WritesFrame", 23, 37),
    ("the stack isn't at a multiple of four", {24: "li t0, 2", 25: "csrw mscratch, t0"}, ["ret"], 25, "", "StackBad", 25, 25),
    ("the stack is below RAM", {24: "lui t0, 0x20000", 25: "csrw mscratch, t0"}, ["ret"], 25, "", "StackBad", 25, 25),
    ("the table is outside memory", {4: "lui t0, 0x10"}, ["ret"], 23, "", "BadTable", 23, 23),
    ("the table's word is in the slot", {4: "li t0, 128"}, ["ret"], 23, "", "BadTable", 23, 23),
    ("mtvec is elsewhere", {2: "li t0, 192"}, ["ret"], 23, "", "NoDispatcher", 23, 23),
    ("the input is hardware-vectored", {10: "lui t0, 0x40030"}, ["ret"], 23, "", "HardVectored", 23, 23),
    ("the foreground jumps into the slot", {24: "jalr zero, 64(zero)"}, ["ret"], None, "", "EnteredDispatch", 24, 24),
    ("a handler has no instruction", {}, [".word 0"], 23, SERVICE, "Exception 2", 23, 37),
    ("a handler calls", {}, ["ecall"], 23, SERVICE, "Exception 11", 23, 37),
    ("a handler loads from no multiple", {}, ["lw a0, 1(zero)", "ret"], 23, SERVICE, "Exception 4", 23, 37),
    ("a handler loads from nowhere", {}, ["lui a0, 0x50000", "lw a0, 0(a0)", "ret"], 23, SERVICE, "Exception 5", 24, 38),
    ("a handler stores into ROM", {}, ["sw zero, 0(zero)", "ret"], 23, SERVICE, "Exception 7", 23, 37),
    ("a handler runs out of memory", {}, ["lui a0, 0x10", "jr a0"], 23, SERVICE, "Exception 1", 25, 39),
    ("the board halts in a handler", {}, ["lui a0, 0x10003", "sw zero, 0(a0)"], 23, SERVICE, "HaltInHandler", 25, 39),
]

# The same where input 3 is hardware-vectored, with direct services: the tenth line makes it so.
HARD = {10: "lui t0, 0x40030"}
DIRECT = "d 3 127 1\n"
DIRECT_CASES = [
    ("t0 is lost", HARD, ["addi t0, t0, 1", "mret"], 23, DIRECT, "RegisterLost", 25, 26),
    ("ra is lost", HARD, ["addi ra, ra, 4", "mret"], 23, DIRECT, "RegisterLost", 25, 26),
    ("a0 is lost", HARD, ["addi a0, a0, 1", "mret"], 23, DIRECT, "RegisterLost", 25, 26),
    ("a direct handler reads a control register", HARD, ["csrr a0, mcause", "mret"], 23, DIRECT, "CsrTouched", 23, 24),
    ("a direct handler reads a byte of the slot", HARD, ["lw a0, 64(zero)", "mret"], 23, DIRECT, "ReadsDispatch", 23, 24),
    ("a direct handler calls", HARD, ["ecall"], 23, DIRECT, "Exception 11", 23, 24),
    ("a direct handler returns as a chained one", HARD, ["ret"], 23, DIRECT, "Exception 2", 24, 25),
    ("a direct handler jumps into the slot", HARD, ["jalr zero, 64(zero)"], 23, DIRECT, "EnteredDispatch", 24, 25),
    ("the board halts in a direct handler", HARD, ["lui a0, 0x10003", "sw zero, 0(a0)"], 23, DIRECT, "HaltInHandler", 25, 26),
    ("the direct table is outside memory", {**HARD, 4: "lui t0, 0x10"}, ["mret"], 23, "", "BadTable", 23, 23),
    ("the direct table's word is in the slot", {**HARD, 4: "li t0, 128"}, ["mret"], 23, "", "BadTable", 23, 23),
    ("the foreground goes back from no trap", {**HARD, 24: "mret"}, ["mret"], None, "", "CsrTouched", 23, 23),
]


def source(changes, handler):
    lines = [".entry start", ".org 0x10c", ".word h", ".org 0x200", "start:"]
    lines += [changes.get(k, line) for k, line in enumerate(FOREGROUND, 1)]
    return "\n".join(lines + ["h:"] + handler) + "\n"


def run(*words):
    made = subprocess.run([PROGRAM, *words], capture_output=True, timeout=20)
    return made.returncode, made.stdout


def main():
    if not PROGRAM.exists():
        print("broken: skipped, since the program isn't built")
        return 0
    wrong = 0
    with tempfile.TemporaryDirectory() as folder:
        place = pathlib.Path(folder)
        cases = [((), case) for case in CASES] + [(("--direct",), case) for case in CASES if case[5] != "HardVectored"]
        cases += [(("--direct",), case) for case in DIRECT_CASES]
        for options, (name, changes, handler, count, services, kind, bodies, steps) in cases:
            (place / "a.s").write_text(source(changes, handler))
            status, image = run("asm", place / "a.s")
            (place / "a.img").write_bytes(image)
            (place / "a.txt").write_text("" if count is None else f"{count} line 3 1\n")
            wanted = f"{services}end broken {kind} {bodies}\nsteps {steps}\n"
            for dispatcher in ("looping", "returning"):
                got = run("chain", place / "a.img", place / "a.txt", dispatcher, "1000", *options)
                if status != 0 or got != (8, wanted.encode()):
                    wrong += 1
                    print(f"broken: {name}, {dispatcher} {options}: {status} {got} in place of {wanted!r}")
    print(f"broken: {len(cases)} cases under both dispatchers, {wrong} wrong")
    return 1 if wrong else 0


if __name__ == "__main__":
    sys.exit(main())
