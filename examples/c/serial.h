/* What serial.c shares with its handlers: what they count, and what each of them does. Each variable has one writer. */
#ifndef SERIAL_H
#define SERIAL_H
#include "board.h"

extern volatile uint32_t bytes;
extern volatile uint32_t ticks;
extern volatile uint32_t last;

/* A byte has come: it is sent back, a small letter as a capital. */
static inline void take_byte(void) {
    uint32_t byte = UART_DATA;
    UART_DATA = byte >= 'a' && byte <= 'z' ? byte - 'a' + 'A' : byte;
    bytes = bytes + 1;
    last = byte;
}

static inline void count_tick(void) {
    TICKER_FLAG = 0;
    ticks = ticks + 1;
}

#endif
