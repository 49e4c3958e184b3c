# Halts the board with code 5.
#
#     ./clic_tool run examples/first.img examples/empty.txt 100
#
# writes first.report. first.img is what `./clic_tool asm examples/first.s` writes: each line has its word in it,
# from address 0 on.

.entry 0
addi a0, zero, 5                  # 00500513
lui  t0, 0x10003                  # 100032B7  the halter
sw   a0, 0(t0)                    # 00A2A023  its register: halt with this code
