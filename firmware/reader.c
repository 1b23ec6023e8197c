/* The example driver of a reader board on the board: the readings go through the block of registers, byte by byte. */
#include "board.h"
#include "../examples/reader.c"
