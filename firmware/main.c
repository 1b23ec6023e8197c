/*
 * The example logger on the board: the plan lies in flash, the engine is lent one state of 12,288 bytes, readings of three
 * sensors come in as the radio delivers them, the engine runs a few moves at a time, and what comes out is printed.
 */
#include "board.h"
#include "../examples/logger.c"
#include "../examples/saving.c"
