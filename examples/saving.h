/*
 * Saving a state to two places of the flash in turn, each with a checksum: whenever the power is cut, the copy before or the
 * new one is there, whole. The firmware brings the three functions over its flash.
 */
#ifndef SAVING_H
#define SAVING_H

#include <stdint.h>

#include "tessla.h"

/* a place has room for a head and a whole state; make it a whole number of the flash's pages */
enum { PLACES = 2, HEAD_LENGTH = 24, WORD = 8, PLACE_LENGTH = HEAD_LENGTH + TESSLA_STATE_LENGTH };

/* the firmware's: where a place can be read; all its bytes to 0xFF; one word to bytes that were erased and not written since */
const uint8_t *flash_at(uint32_t place);
void flash_erase(uint32_t place);
void flash_write(uint32_t place, uint32_t at, const uint8_t word[WORD]);

/* saves the state over the older of the two copies; of one without a plan no byte has to be saved, and the copy is whole */
void save(const uint8_t *state);

/* fills the state from the newest whole copy, and answers 1; 0 if there is none, and the state is as it was */
int restore(uint8_t *state);

#endif
