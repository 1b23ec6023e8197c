/* Saving a state to two places of the flash in turn, each with a checksum. */
#include <string.h>

#include "saving.h"

/*
 * A place: a head of 24 bytes, numbers with the least byte first, and behind it the used part of the state.
 *    0  "TESSLA", the version's two parts
 *    8  the number of the save, counted from 1
 *   12  how many bytes of the state are saved
 *   16  the checksum of all that: bytes 0 to 15 and the saved bytes
 *   20  0
 */
enum { AT_NUMBER = 8, AT_LENGTH = 12, AT_SUM = 16 };

static const uint8_t NAME[8] = { 'T', 'E', 'S', 'S', 'L', 'A', TESSLA_VERSION_MAJOR, TESSLA_VERSION_MINOR };

static uint32_t number_at(const uint8_t *b) {
    return b[0] | (uint32_t)b[1] << 8 | (uint32_t)b[2] << 16 | (uint32_t)b[3] << 24;
}

static void store_number(uint8_t *b, uint32_t x) {
    for (int i = 0; i < 4; i++) b[i] = (uint8_t)(x >> 8 * i);
}

/* CRC-32, one bit at a time: some 100,000 steps for a whole state, 20 ms on the logger */
static uint32_t checksum(uint32_t sum, const uint8_t *b, uint32_t n) {
    sum = ~sum;
    for (uint32_t i = 0; i < n; i++) {
        sum ^= b[i];
        for (int bit = 0; bit < 8; bit++) sum = sum >> 1 ^ (sum & 1 ? 0xEDB88320u : 0);
    }
    return ~sum;
}

static uint32_t sum_of(const uint8_t *head, const uint8_t *bytes, uint32_t n) {
    return checksum(checksum(0, head, AT_SUM), bytes, n);
}

/* the number of the save in a place; 0 if no whole copy is there. The name without the minor version: an older copy is read. */
static uint32_t saved_in(uint32_t place) {
    const uint8_t *head = flash_at(place);
    uint32_t length = number_at(head + AT_LENGTH);
    if (memcmp(head, NAME, 7) != 0 || length > TESSLA_STATE_LENGTH) return 0;
    return sum_of(head, head + HEAD_LENGTH, length) == number_at(head + AT_SUM) ? number_at(head + AT_NUMBER) : 0;
}

/* the place with the newest whole copy; with none, the second, so that the first is written first */
static uint32_t newest(void) {
    return saved_in(0) > saved_in(1) ? 0 : 1;
}

static void write_all(uint32_t place, uint32_t at, const uint8_t *bytes, uint32_t n) {
    for (uint32_t i = 0; i < n; i += WORD) flash_write(place, at + i, bytes + i);
}

void save(const uint8_t *state) {
    uint32_t old = newest(), place = 1 - old, length = tessla_used_length(state);
    uint8_t head[HEAD_LENGTH] = { 0 };
    memcpy(head, NAME, sizeof NAME);
    store_number(head + AT_NUMBER, saved_in(old) + 1);
    store_number(head + AT_LENGTH, length);
    store_number(head + AT_SUM, sum_of(head, state, length));
    flash_erase(place);
    write_all(place, HEAD_LENGTH, state, length);
    write_all(place, 0, head, HEAD_LENGTH);
}

int restore(uint8_t *state) {
    uint32_t place = newest();
    if (saved_in(place) == 0) return 0;
    const uint8_t *head = flash_at(place);
    uint32_t length = number_at(head + AT_LENGTH);
    memcpy(state, head + HEAD_LENGTH, length);
    memset(state + length, 0, TESSLA_STATE_LENGTH - length);
    return 1;
}
