/* The picture checksum of a plane as H.265, Annex D, writes it down: one loop nest. */
#include "annex_d.h"

uint32_t annex_d_checksum(const uint16_t *plane, uint32_t width, uint32_t height, uint32_t depth) {
    uint32_t sum = 0;
    for (uint32_t y = 0; y < height; y++) {
        for (uint32_t x = 0; x < width; x++) {
            uint32_t mask = (x & 0xFF) ^ (y & 0xFF) ^ (x >> 8) ^ (y >> 8);
            uint32_t sample = plane[(size_t)y * width + x];
            sum += (sample & 0xFF) ^ mask;
            if (depth > 8) sum += (sample >> 8) ^ mask;
        }
    }
    return sum;
}
