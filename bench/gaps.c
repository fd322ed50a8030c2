/* A plain walk over a capture, for measurements: as the walk of walk.c, with a count of the sequence numbers that are
 * missing. It prints how many entries, malformed entries, keys and missing numbers there are.
 *   cc -O2 -o gaps bench/gaps.c && ./gaps < CAPTURE */
#include <stdio.h>

#include "gaps.h"

/* Of a record the length is enough. */
static int flow_record(uint32_t format, Cursor c) {
    (void)format;
    (void)c;
    return 1;
}

int main(void) {
    Counts counts = {0, 0};
    if (each_datagram(datagram, &counts) != 0) return 5;
    printf("entries %llu malformed %llu keys %llu missing %llu\n", (unsigned long long)counts.entries,
           (unsigned long long)counts.malformed, (unsigned long long)keys, (unsigned long long)missing);
    return counts.malformed > 0;
}
