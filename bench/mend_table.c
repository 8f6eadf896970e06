/* The peer of `ecpipe mend K N ROW`: the same job by a product table of 256 x 256 bytes, or by ISA-L's
 * gf_vect_mad (HAVE_ISAL).
 *
 * Reads standard input whole as one stripe of K blocks of ceil(length / K) bytes, filled with zeros, and
 * writes row ROW: the sum of the first K rows other than ROW, each times its interpolation weight. */
#include "times.h"
#include <stdint.h>
#include <stdio.h>
#include <stdlib.h>
#include <string.h>
#ifdef HAVE_ISAL
#include <isa-l/erasure_code.h>
#endif

static uint8_t product[256][256];

static uint8_t quotient(uint8_t a, uint8_t b) {
    for (int q = 0; q < 256; q++)
        if (product[q][b] == a) return (uint8_t)q;
    return 0;
}

static uint8_t weight(const uint8_t *rows, int k, int j, uint8_t t) {
    uint8_t w = 1;
    for (int m = 0; m < k; m++)
        if (m != j) w = product[w][quotient(t ^ rows[m], rows[j] ^ rows[m])];
    return w;
}

/* dst += c * src */
static void add_times(uint8_t *dst, uint8_t c, const uint8_t *src, size_t len) {
#ifdef HAVE_ISAL
    uint8_t tables[32];
    gf_vect_mul_init(c, tables);
    gf_vect_mad((int)len, 1, 0, tables, (uint8_t *)src, dst);
#else
    const uint8_t *line = product[c];
    for (size_t i = 0; i < len; i++) dst[i] ^= line[src[i]];
#endif
}

int main(int argc, char **argv) {
    if (argc != 4) return 2;
    int k = atoi(argv[1]), row = atoi(argv[3]);
    for (int a = 0; a < 256; a++)
        for (int b = 0; b < 256; b++) product[a][b] = times((uint8_t)a, (uint8_t)b);

    size_t room = 65537, len = 0, got;
    uint8_t *bytes = malloc(room);
    while ((got = fread(bytes + len, 1, room - len, stdin)) > 0) {
        len += got;
        if (len == room) bytes = realloc(bytes, room *= 2);
    }
    size_t block = (len + (size_t)k - 1) / (size_t)k;
    if (block == 0) return 0;
    bytes = realloc(bytes, block * (size_t)k);
    memset(bytes + len, 0, block * (size_t)k - len);

    uint8_t rows[16], data[16];
    int count = 0;
    for (int r = 0; count < k; r++)
        if (r != row) rows[count++] = (uint8_t)r;
    for (int j = 0; j < k; j++) data[j] = (uint8_t)j;

    uint8_t *helper = malloc(block), *sum = calloc(block, 1);
    for (int j = 0; j < k; j++) {
        const uint8_t *from = helper;
        if (rows[j] < k) {
            from = bytes + rows[j] * block;
        } else {
            memset(helper, 0, block);
            for (int m = 0; m < k; m++) add_times(helper, weight(data, k, m, rows[j]), bytes + (size_t)m * block, block);
        }
        add_times(sum, weight(rows, k, j, (uint8_t)row), from, block);
    }
    return fwrite(sum, 1, block, stdout) == block && fflush(stdout) == 0 ? 0 : 6;
}
