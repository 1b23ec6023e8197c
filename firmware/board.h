/* What the start code offers to a program on the board. */
#ifndef BOARD_H
#define BOARD_H
#include <stdint.h>

/* writes text */
void put(const char *text);
/* ends the emulation with this status */
void quit(int status);

/* paints the unused stack; then the lowest address that lost its paint */
void stack_paint(void);
uint32_t stack_mark(void);

/* instructions since the start, counted by SysTick under -icount shift=10, up to 2.6 million */
void count_start(void);
uint32_t count_read(void);
#endif
