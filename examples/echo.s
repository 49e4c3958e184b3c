# Sends each byte that comes to the serial port back, up to a full stop.
#
#     ./clic_tool run examples/echo.img examples/echo.txt 1000
#
# writes echo.report: three bytes were sent, 48 69 2E, which are "Hi.". echo.img is what `./clic_tool asm
# examples/echo.s` writes: each line has its word in it, from address 0 on.

.entry 0
lui  s0, 0x10000                  # 10000437  the serial port
lui  s1, 0x10003                  # 100034B7  the halter
addi s2, zero, 46                 # 02E00913  a full stop

wait: lw   t0, 4(s0)              # 00442283  bit 0: a byte waits
andi t0, t0, 1                    # 0012F293
beq  t0, zero, wait               # FE028CE3
lw   a0, 0(s0)                    # 00042503  take it
sw   a0, 0(s0)                    # 00A42023  send it back
bne  a0, s2, wait                 # FF2516E3
sw   zero, 0(s1)                  # 0004A023  halt with code 0
