/* The example logger that is updated in the season, on the board: a state of each length, and two places of the flash, in 64 KB of RAM. */
#include "board.h"
#include "../examples/longer.c"
#include "../examples/saving.c"
