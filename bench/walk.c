/* A plain walk over a capture, for measurements: it reads standard input 64 KiB at a time, brings each datagram into a
 * room, walks its samples and records by the lengths alone, and prints how many entries there are and how many of them
 * are malformed. It looks into no record but those of the ten formats that `sflow` reads, and stops at the first fault.
 *   cc -O2 -o walk bench/walk.c && ./walk < CAPTURE */
#include <stdio.h>

#include "capture.h"

/* A counted run of bytes with its padding. */
static int opaque(Cursor *c) {
    uint32_t length;
    return word(c, &length) && skip(c, length) && skip(c, -length & 3);
}

static int address(Cursor *c) {
    uint32_t kind;
    if (!word(c, &kind) || kind > 2) return 0;
    return skip(c, kind == 0 ? 0 : kind == 1 ? 4 : 16);
}

static int words(Cursor *c) {
    uint32_t count;
    return word(c, &count) && skip(c, (size_t)count * 4);
}

static int gateway(Cursor *c) {
    uint32_t segments, kind;
    if (!address(c) || !skip(c, 12) || !word(c, &segments)) return 0;
    while (segments-- > 0)
        if (!word(c, &kind) || kind < 1 || kind > 2 || !words(c)) return 0;
    return words(c) && skip(c, 4);
}

static int flow_record(uint32_t format, Cursor c) {
    switch (format) {
    case 1: return skip(&c, 12) && opaque(&c);
    case 2: return skip(&c, 24);
    case 3: return skip(&c, 32);
    case 4: return skip(&c, 56);
    case 1001: return skip(&c, 16);
    case 1002: return address(&c) && skip(&c, 8);
    case 1003: return gateway(&c);
    default: return 1;
    }
}

static int counter_record(uint32_t format, Cursor c) {
    return format == 1 ? skip(&c, 88) : format == 2 ? skip(&c, 52) : format == 5 ? skip(&c, 28) : 1;
}

/* A list of frames, each of a format, a length, a body and padding, with a walk for the bodies. */
static int frames(Cursor *c, int (*walk)(uint32_t, Cursor)) {
    uint32_t count, format, length;
    if (!word(c, &count)) return 0;
    while (count-- > 0) {
        if (!word(c, &format) || !word(c, &length) || (size_t)(c->end - c->at) < length) return 0;
        if (!walk(format, (Cursor){c->at, c->at + length})) return 0;
        c->at += length;
        if (!skip(c, -length & 3)) return 0;
    }
    return 1;
}

static int sample(uint32_t format, Cursor c) {
    switch (format) {
    case 1: return skip(&c, 28) && frames(&c, flow_record);
    case 2: return skip(&c, 8) && frames(&c, counter_record);
    case 3: return skip(&c, 40) && frames(&c, flow_record);
    case 4: return skip(&c, 12) && frames(&c, counter_record);
    default: return 1;
    }
}

static int datagram(Cursor c) {
    uint32_t version;
    return word(&c, &version) && version == 5 && address(&c) && skip(&c, 12) && frames(&c, sample) && c.at == c.end;
}

int main(void) {
    Counts counts = {0, 0};
    if (each_datagram(datagram, &counts) != 0) return 5;
    printf("checked %llu faulty %llu\n", (unsigned long long)counts.entries, (unsigned long long)counts.malformed);
    return counts.malformed > 0;
}
