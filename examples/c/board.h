/* The registers of the board's four devices and of its interrupt controller. */
#ifndef BOARD_H
#define BOARD_H

#include <stdint.h>

/* A device's register is read and written by whole words alone. */
#define WORD_AT(address) (*(volatile uint32_t *)(address))
#define BYTE_AT(address) (*(volatile uint8_t *)(address))

/* The serial port. Reading UART_DATA takes the first byte that waits; writing it sends one. */
#define UART_DATA WORD_AT(0x10000000)
#define UART_STATUS WORD_AT(0x10000004) /* bit 0: a byte waits */
#define UART_ENABLE WORD_AT(0x10000008) /* bit 0: its line is high while a byte waits */
#define UART_OVERRUNS WORD_AT(0x1000000C)
#define UART_DROPPED WORD_AT(0x10000010)

/* The pins. Their line is high while a pin is high that the mask has. */
#define GPIO_PINS WORD_AT(0x10001000)
#define GPIO_OUT WORD_AT(0x10001004)
#define GPIO_MASK WORD_AT(0x10001008)

/* The timer. Its line is high while the flag is 1; a write to the flag clears it. */
#define TICKER_COUNT WORD_AT(0x10002000)
#define TICKER_PERIOD WORD_AT(0x10002004)
#define TICKER_ENABLE WORD_AT(0x10002008)
#define TICKER_FLAG WORD_AT(0x1000200C)

/* A store halts the board, with the word as code. */
#define HALTER WORD_AT(0x10003000)

/* Inputs of the interrupt controller that are device lines. */
#define UART_INPUT 16
#define GPIO_INPUT 17
#define TICKER_INPUT 18

/* The controller: how many upper bits of a control byte are the level, in bits 4:1, and four bytes an input. */
#define CLIC_CONFIG BYTE_AT(0x02000000)
#define CLIC_PENDING(input) BYTE_AT(0x02001000 + 4 * (input))
#define CLIC_ENABLE(input) BYTE_AT(0x02001001 + 4 * (input))
#define CLIC_ATTRIBUTE(input) BYTE_AT(0x02001002 + 4 * (input)) /* bit 1: by an edge, bit 2: negative */
#define CLIC_CONTROL(input) BYTE_AT(0x02001003 + 4 * (input))

/* For the foreground alone: a handler executes no instruction on a control register. */
static inline void interrupts_on(void) { __asm__ volatile("csrsi mstatus, 8" ::: "memory"); }
static inline void interrupts_off(void) { __asm__ volatile("csrci mstatus, 8" ::: "memory"); }

static inline void send(const char *text) {
    while (*text != 0) {
        UART_DATA = (uint8_t)*text++;
    }
}

#endif
