/* The handlers of serial.c in plain C: they change no register but ra, a0 and a1, since build.sh takes the others from
   the compiler in this file. So no wrapper saves any, and the static checker takes both. */
#include "serial.h"

void handler_16(void) {
    take_byte();
}

void handler_18(void) {
    count_tick();
}
