/* Two handlers: bytes that come to the serial port are sent back as capitals, and ticks are counted. A full stop ends
   it: the foreground then sends how many there were of both. */
#include "serial.h"

volatile uint32_t bytes;
volatile uint32_t ticks;
volatile uint32_t last;
static volatile uint32_t period = 10; /* counts of time a tick */

/* The handlers of serial_handlers.S call these; those of serial_plain.c do without. */
void on_byte(void) {
    take_byte();
}

void on_tick(void) {
    count_tick();
}

static void input_on(int input, uint8_t control) {
    CLIC_ATTRIBUTE(input) = 0; /* by level */
    CLIC_CONTROL(input) = control;
    CLIC_ENABLE(input) = 1;
}

static void send_number(uint32_t number) {
    if (number >= 10) {
        send_number(number / 10);
    }
    UART_DATA = '0' + number % 10;
}

int main(void) {
    CLIC_CONFIG = 2 << 1; /* the two upper bits of a control byte are the level */
    input_on(UART_INPUT, 0xC0);
    input_on(TICKER_INPUT, 0x40);
    UART_ENABLE = 1;
    TICKER_PERIOD = period;
    TICKER_ENABLE = 1;
    send("ready\n");
    interrupts_on();
    while (last != '.') {
    }
    interrupts_off();
    send("\nbytes ");
    send_number(bytes);
    send(", ticks ");
    send_number(ticks);
    send("\n");
    return 0;
}
