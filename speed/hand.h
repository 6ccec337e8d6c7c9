/* A codec by hand, with the calls of the archive: see hand.c. */
#include "../include/adsc.h"

enum { HAND_NOT_MINE = 255 };   /* instead of a refusal: a PDU of a kind that it does not have */

uint8_t hand_read_air(const uint8_t *octets, size_t octets_length, uint32_t *numbers, size_t numbers_length, uint8_t *list, size_t list_length);
uint8_t hand_read_ground(const uint8_t *octets, size_t octets_length, uint32_t *numbers, size_t numbers_length);
uint8_t hand_write_air(const uint32_t *numbers, size_t numbers_length, const uint8_t *list, size_t list_length, uint8_t *out, size_t out_length,
                       size_t *written);
uint8_t hand_write_ground(const uint32_t *numbers, size_t numbers_length, uint8_t *out, size_t out_length, size_t *written);
