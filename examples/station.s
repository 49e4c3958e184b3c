# A station that sends bytes back and counts ticks, each by a handler, while the foreground waits for three bytes. It
# reads their count with interrupts off, so that they come in a window of one instruction.
#
#     ./clic_tool chain examples/station.img examples/station.txt looping 1000
#
# writes station.report; with `returning` it is the same but for the steps, which are 190.

.entry start

# The table: the address of input i's handler stands at 0x100 + 4 * i.
.org 0x140
.word receive                     # input 16, the serial port's
.org 0x148
.word tick                        # input 18, the ticker's

.org 0x200
start: lui sp, 0x20008            # the foreground's stack
li t0, 0x40
csrw mtvec, t0                    # interrupts go to the dispatcher
li t0, 0x100
csrw mtvt, t0                     # the table

lui t1, 0x2000
li t0, 2
sb t0, 0(t1)                      # the upper bit of a control byte is the level
lui t1, 0x2001                    # the inputs of the interrupt controller
lui t0, 0xC0000                   # level 255, while the line is high
addi t0, t0, 0x100                # enabled
sw t0, 64(t1)                     # input 16
lui t0, 0x40000                   # level 127, while the line is high
addi t0, t0, 0x100                # enabled
sw t0, 72(t1)                     # input 18

lui t0, 0x10000                   # the serial port
li t2, 1
sw t2, 8(t0)                      # its line is high while a byte waits
lui t0, 0x10002                   # the ticker
li t2, 2
sw t2, 4(t0)                      # two counts of time are a tick
li t2, 1
sw t2, 8(t0)                      # it counts

lui s0, 0x20000                   # two counts of the handlers: bytes, ticks
li s1, 3
loop: csrsi mstatus, 8            # interrupts are on,
csrci mstatus, 8                  # and off again
lw t0, 0(s0)
bne t0, s1, loop                  # until three bytes came
lui t0, 0x10003
sw zero, 0(t0)                    # halt with code 0

# A handler may change ra, a0 and a1 alone.
receive: lui a0, 0x10000
lw a1, 0(a0)                      # take a byte, which lets the line fall where it is the last
sw a1, 0(a0)                      # send it back
lui a0, 0x20000
lw a1, 0(a0)
addi a1, a1, 1
sw a1, 0(a0)
ret

tick: lui a0, 0x10002
sw zero, 12(a0)                   # let the ticker's line fall
lui a0, 0x20000
lw a1, 4(a0)
addi a1, a1, 1
sw a1, 4(a0)
ret
