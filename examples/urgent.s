# Two inputs of which one has a vector of its own: input 3 counts in RAM, and input 5 sends the count.
#
#     ./clic_tool chain examples/urgent.img examples/urgent.txt looping 1000 --direct
#
# writes urgent.report, and so it does with `returning`. Without `--direct` the convention is broken by HardVectored
# when input 3 comes.

.entry start

# The table: the address of input i's handler stands at 0x100 + 4 * i.
.org 0x10C
.word urgent
.org 0x114
.word send

.org 0x200
start: lui sp, 0x20008            # the foreground's stack
li t0, 0x40
csrw mtvec, t0                    # interrupts go to the dispatcher
li t0, 0x100
csrw mtvt, t0                     # the table

lui t1, 0x2000
li t0, 4
sb t0, 0(t1)                      # the upper 2 bits of a control byte are the level
lui t1, 0x2001                    # the inputs of the interrupt controller
lui t0, 0xC0030                   # level 255, rising edge, hardware-vectored
addi t0, t0, 0x100                # enabled
sw t0, 12(t1)                     # input 3
lui t0, 0x40020                   # level 127, rising edge
addi t0, t0, 0x100                # enabled
sw t0, 20(t1)                     # input 5

csrsi mstatus, 8                  # interrupts are on
li s0, 10
loop: addi s0, s0, -1
bne s0, zero, loop
lui t0, 0x10003
sw zero, 0(t0)                    # halt with code 0

# A handler with a vector of its own gives every register back, and ends by mret.
urgent: addi sp, sp, -8
sw a0, 0(sp)
sw a1, 4(sp)
lui a0, 0x20000
lw a1, 0(a0)
addi a1, a1, 1
sw a1, 0(a0)
lw a1, 4(sp)
lw a0, 0(sp)
addi sp, sp, 8
mret

# A chained handler may change ra, a0 and a1 alone.
send: lui a0, 0x20000
lw a1, 0(a0)
lui a0, 0x10000
sw a1, 0(a0)                      # the serial port sends the lowest byte
ret
