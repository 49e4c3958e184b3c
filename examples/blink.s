# Turns a pin on and off at each interrupt of the ticker, four times.
#
#     ./clic_tool run examples/blink.img examples/blink.txt 1000 --trace
#
# writes blink.report: the lines with q are the four entries of the handler, for input 18. blink.img is what
# `./clic_tool asm examples/blink.s` writes: each line has its word in it, from address 0 on.

.entry 0
lui  s0, 0x10001                  # 10001437  the pins
lui  s1, 0x10002                  # 100024B7  the ticker, whose line is input 18
lui  s2, 0x10003                  # 10003937  the halter
addi t0, zero, 0x40               # 04000293
csrw mtvec, t0                    # 30529073  handlers begin at 0x40

lui  t1, 0x2001                   # 02001337  the inputs of the interrupt controller
addi t0, zero, 1                  # 00100293
sb   t0, 73(t1)                   # 045304A3  4 * 18 + 1: input 18 is enabled
addi t0, zero, -1                 # FFF00293
sb   t0, 75(t1)                   # 045305A3  4 * 18 + 3: its level is 255

addi t0, zero, 10                 # 00A00293
sw   t0, 4(s1)                    # 0054A223  the period
addi t0, zero, 1                  # 00100293
sw   t0, 8(s1)                    # 0054A423  the ticker is enabled
csrsi mstatus, 8                  # 30046073  interrupts are on

loop: j    loop                   # 0000006F

# at 0x40
tick: lw   t0, 4(s0)              # 00442283  what the pins put out
xori t0, t0, 1                    # 0012C293  on, off
sw   t0, 4(s0)                    # 00542223
sw   zero, 12(s1)                 # 0004A623  the line goes low
addi s3, s3, 1                    # 00198993
addi t1, zero, 4                  # 00400313
beq  s3, t1, done                 # 00698463
mret                              # 30200073
done: sw   s3, 0(s2)              # 01392023  halt with code 4
