# The handlers of serial.c.
.include "handler.inc"

handler 16, on_byte
handler 18, on_tick
