# Sends what the Flash holds, reads its second byte again, and goes on until the Watchdog halts the board. A handler takes
# the time at the alarm.
#
#     ./template_tool run examples/template/send.img examples/template/send.txt 1000
#
# writes send.report.

.entry 0
lui s0, 0x10002                   # the Flash
lui s1, 0x10000                   # the serial port
lui s2, 0x10001                   # the Alarm, whose line is input 17
lui s3, 0x10003                   # the Watchdog
li t0, 0x80
csrw mtvec, t0                    # handlers begin at 0x80

lui t1, 0x2001                    # the inputs of the interrupt controller
lui t0, 0xFF000                   # level 255, while the line is high
addi t0, t0, 0x100                # enabled
sw t0, 68(t1)                     # input 17

li t0, 5
sw t0, 4(s2)                      # the Alarm wakes at time 5
li t0, 8
sw t0, 0(s3)                      # the Watchdog has 8 counts left

next: lw t0, 4(s0)                # is a byte left?
beq t0, zero, sent
lw t1, 0(s0)
sw t1, 0(s1)                      # it is sent
j next

sent: li t0, 1
sw t0, 8(s0)                      # the Flash goes back to place 1
lw s4, 0(s0)                      # its second byte
lw s5, 8(s0)                      # the place behind it
csrsi mstatus, 8                  # interrupts are on
loop: j loop

.org 0x80
lw s6, 0(s2)                      # the time at which the Alarm wakes
sw zero, 0(s2)                    # it begins again, and its line falls
lw s7, 0(s3)                      # what the Watchdog has left
mret
