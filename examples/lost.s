# A handler that changes a register of the program that it interrupts, so that the program doesn't halt. README finds
# the instruction with examples/lost.script.

.entry start

# The table: input 3 is hardware-vectored, and the address of its handler stands at 0x100 + 4 * 3.
.org 0x10C
.word count

.org 0x200
start: li t0, 0x100
csrw mtvt, t0                     # the table
lui t1, 0x2001                    # the inputs of the interrupt controller
lui t0, 0xFF030                   # level 255, rising edge, hardware-vectored
addi t0, t0, 0x100                # enabled
sw t0, 12(t1)                     # input 3
csrsi mstatus, 8                  # interrupts are on
lui t0, 0x10003                   # the halter
li s0, 10
loop: addi s0, s0, -1
bne s0, zero, loop
done: sw zero, 0(t0)              # halt with code 0
stuck: j stuck

count: lui t0, 0x20000            # here the program's t0 is lost
lw t1, 0(t0)
addi t1, t1, 1
sw t1, 0(t0)
mret
