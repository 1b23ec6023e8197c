/*
 * Start, text output, instruction counter and stack gauge for a Cortex-M0+ or M3 in the emulator.
 * On a logger only `put`, `quit` and the counter are to be replaced; the rest is as on any small Arm.
 */
#include "board.h"

extern uint32_t __data[], __data_end[], __data_load[], __bss[], __bss_end[], __stack_low[], __stack_top[];
extern int main(void);

/* semihosting: the emulator carries out what r0 names */
static uint32_t ask(uint32_t what, const void *argument) {
    register uint32_t r0 __asm__("r0") = what;
    register const void *r1 __asm__("r1") = argument;
    __asm__ volatile("bkpt 0xab" : "+r"(r0) : "r"(r1) : "memory");
    return r0;
}

void put(const char *text) { ask(0x04, text); }

void quit(int status) {
    uint32_t block[2] = { 0x20026, (uint32_t)status };
    ask(0x20, block);
    for (;;) { }
}

/*
 * SysTick counts the core clock down, 80 ns a tick after reset on this board. Under -icount shift=10 an instruction takes
 * 1024 ns, 12.8 ticks: ticks * 5 / 64, rounded, is exact. Its flag says that the 24 bits were passed, once.
 */
#define SYSTICK ((volatile uint32_t *)0xE000E010)
void count_start(void) {
    SYSTICK[1] = 0xFFFFFF;
    SYSTICK[0] = 5;
    SYSTICK[2] = 0;
}
uint32_t count_read(void) {
    uint32_t now = SYSTICK[2], passed = SYSTICK[0] >> 16 & 1;
    return ((0xFFFFFF - now + (passed << 24)) * 5 + 32) >> 6;
}

#define PAINT 0x5AA5C33Cu
__attribute__((noinline)) void stack_paint(void) {
    uint32_t *sp;
    __asm__ volatile("mov %0, sp" : "=r"(sp));
    for (uint32_t *p = __stack_low; p < sp; p++) *(volatile uint32_t *)p = PAINT;
}
uint32_t stack_mark(void) {
    volatile uint32_t *p = __stack_low;
    while (p < __stack_top && *p == PAINT) p++;
    return (uint32_t)p;
}

/* A fault may come from a full stack, so the handler starts the stack anew. */
__attribute__((used)) static void fault_end(void) {
    put("FAULT\n");
    quit(99);
}
__attribute__((naked)) static void fault(void) {
    __asm__ volatile("ldr r0, =__stack_top\n mov sp, r0\n bl fault_end\n .ltorg");
}

void reset(void) {
    uint32_t *from = __data_load;
    for (uint32_t *to = __data; to < __data_end;) *to++ = *from++;
    for (uint32_t *to = __bss; to < __bss_end;) *to++ = 0;
    quit(main());
}

__attribute__((section(".vectors"), used)) static const void *const vectors[16] = {
    __stack_top, reset, fault, fault, fault, fault, fault, 0, 0, 0, 0, fault, fault, 0, fault, fault,
};
