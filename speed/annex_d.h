#ifndef ANNEX_D_H
#define ANNEX_D_H

#include <stddef.h>
#include <stdint.h>

/* The sum of width * height samples, modulo 2^32. */
uint32_t annex_d_checksum(const uint16_t *plane, uint32_t width, uint32_t height, uint32_t depth);

#endif
