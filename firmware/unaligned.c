/* Loads a word from an odd address. A Cortex-M0+ faults; an emulator that does not would hide such a load of the engine. */
#include "board.h"

static uint8_t bytes[8] __attribute__((aligned(8)));

int main(void) {
    uint32_t x;
    __asm__ volatile("ldr %0, [%1]" : "=l"(x) : "l"(bytes + 1) : "memory");
    return (int)x;
}
