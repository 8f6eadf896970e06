/* The product in the field of 256 elements that 0x11D reduces: what both peers' tables hold. */
#include <stdint.h>

static uint8_t times(uint8_t a, uint8_t b) {
    unsigned p = 0;
    for (int i = 0; i < 8; i++)
        if (b >> i & 1) p ^= (unsigned)a << i;
    for (int i = 14; i >= 8; i--)
        if (p >> i & 1) p ^= 0x11Du << (i - 8);
    return (uint8_t)p;
}
