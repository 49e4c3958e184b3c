/* Sends a text and halts. */
#include "board.h"

int main(void) {
    send("Hello from C.\n");
    return 0;
}
