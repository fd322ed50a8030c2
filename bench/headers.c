/* A plain scan of sampled headers, for measurements: what each of 4,096 headers of a file says (kind, VLAN, type, protocol,
 * addresses, ports and control bits), one after the other. The file has 129 bytes for each: a length and 128 bytes. It prints
 * picoseconds a header, the best of 400 turns, and a sum over what was told.
 *   cc -O2 -o headers bench/headers.c && ./headers < FILE */
#include <stdio.h>
#include <time.h>

#include "scan.h"

enum { COUNT = 4096, WIDTH = 129, ROUNDS = 2, TURNS = 400 };
static uint64_t tally(uint64_t sum, const Facts *f) {
    return sum * 31 + (uint64_t)f->kind + (uint64_t)(f->dst_port + 1) + (uint64_t)(f->flags + 1)
        + (uint64_t)(f->vlan + 1) + (f->address ? f->src[3] : 0);
}

static double now(void) {
    struct timespec t;
    clock_gettime(CLOCK_MONOTONIC, &t);
    return (double)t.tv_sec * 1e12 + (double)t.tv_nsec * 1e3;
}

int main(void) {
    static uint8_t bytes[COUNT * WIDTH];
    static Facts facts[16];
    uint64_t sum = 0;
    double best = 1e18;
    if (fread(bytes, 1, sizeof bytes, stdin) != sizeof bytes) return 1;
    for (int turn = 0; turn < TURNS; turn++) {
        double begin = now(), spent;
        for (int round = 0; round < ROUNDS; round++)
            for (size_t group = 0; group < COUNT; group += 16) {
                for (size_t k = 0; k < 16; k++) {
                    const uint8_t *slot = bytes + (group + k) * WIDTH;
                    scan(&facts[k], 1, slot + 1, slot[0]);
                }
                for (size_t k = 0; k < 16; k++) sum = tally(sum, &facts[k]);
            }
        spent = (now() - begin) / ((double)ROUNDS * COUNT);
        if (spent < best) best = spent;
    }
    printf("%.0f %llu\n", best, (unsigned long long)sum);
    return 0;
}
