/* The peers of `ecp_kernel` on 64 KiB of source: a loop over a table of 256 products, memcpy, and ISA-L's
 * gf_vect_mad where it is installed (HAVE_ISAL). Prints for each of 20 rounds each peer's rate in hundredths of a GB
 * of source a second. */
#include "times.h"
#include <stdint.h>
#include <stdio.h>
#include <string.h>
#include <time.h>
#ifdef HAVE_ISAL
#include <isa-l/erasure_code.h>
void gf_vect_mad_sse(int len, int vec, int vec_i, unsigned char *gftbls, unsigned char *src, unsigned char *dest);
#endif

enum { LEN = 65536, REPEATS = 512 };
static uint8_t src[LEN] __attribute__((aligned(64))), dst[LEN] __attribute__((aligned(64))), table[256];

static void by_table(void) {
    for (int i = 0; i < LEN; i++) dst[i] ^= table[src[i]];
}

static void copy(void) { memcpy(dst, src, LEN); }

#ifdef HAVE_ISAL
static uint8_t tables[32];
static void isal_sse(void) { gf_vect_mad_sse(LEN, 1, 0, tables, src, dst); }
static void isal_best(void) { gf_vect_mad(LEN, 1, 0, tables, src, dst); }
#endif

static void timed(const char *name, void (*run)(void)) {
    for (int round = 0; round < 20; round++) {
        struct timespec a, b;
        clock_gettime(CLOCK_MONOTONIC, &a);
        for (int i = 0; i < REPEATS; i++) {
            run();
            __asm__ volatile("" ::: "memory");
        }
        clock_gettime(CLOCK_MONOTONIC, &b);
        double ns = (b.tv_sec - a.tv_sec) * 1e9 + (b.tv_nsec - a.tv_nsec);
        printf("%s %.0f\n", name, 100.0 * REPEATS * LEN / ns);
    }
}

int main(void) {
    memset(src, 0x5a, LEN);
    memset(dst, 0xc3, LEN);
    for (int i = 0; i < 256; i++) table[i] = times(0x8e, (uint8_t)i);
    timed("C, table of 256 products", by_table);
    timed("memcpy", copy);
#ifdef HAVE_ISAL
    gf_vect_mul_init(0x8e, tables);
    timed("ISA-L gf_vect_mad_sse", isal_sse);
    timed("ISA-L gf_vect_mad, best of the machine", isal_best);
#endif
    return 0;
}
