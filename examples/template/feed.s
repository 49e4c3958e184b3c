# At each alarm a handler sends the Flash's next byte and feeds the Watchdog. Where no byte is left it doesn't, and the
# Watchdog halts the board.
#
#     ./template_tool looping examples/template/feed.img examples/template/feed.txt 1000
#
# writes feed.report; with `returning` it is the same, since no handler begins straight after another.

.entry start

# The table: the address of input i's handler stands at 0x100 + 4 * i.
.org 0x144
.word wake                        # input 17, the Alarm's

.org 0x200
start: lui sp, 0x20008            # the foreground's stack
li t0, 0x40
csrw mtvec, t0                    # interrupts go to the dispatcher
li t0, 0x100
csrw mtvt, t0                     # the table

lui t1, 0x2001                    # the inputs of the interrupt controller
lui t0, 0xFF000                   # level 255, while the line is high
addi t0, t0, 0x100                # enabled
sw t0, 68(t1)                     # input 17

lui t0, 0x10001                   # the Alarm
li t1, 4
sw t1, 4(t0)                      # wakes at time 4
lui t0, 0x10003                   # the Watchdog
li t1, 10
sw t1, 0(t0)                      # has 10 counts left

csrsi mstatus, 8                  # interrupts are on
loop: j loop

# A handler may change ra, a0 and a1 alone.
wake: lui a0, 0x10001
sw zero, 0(a0)                    # the Alarm's time begins again, and its line falls
lui a0, 0x10002
lw a1, 4(a0)                      # is a byte left in the Flash?
beq a1, zero, done
lw a1, 0(a0)                      # the next one
lui a0, 0x10000
sw a1, 0(a0)                      # is sent by the serial port,
lui a0, 0x10003
li a1, 10
sw a1, 0(a0)                      # and the Watchdog is fed
done: ret
