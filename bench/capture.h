/* A capture on standard input, read 64 KiB at a time, entry by entry, for the walks beside it. */
#include <stdint.h>
#include <string.h>
#include <unistd.h>

static uint8_t ahead[1 << 16], room[65536];
static size_t next, held;

/* Brings so many bytes into a place; returns how many there were. */
static size_t take(uint8_t *place, size_t wanted) {
    size_t done = 0;
    while (done < wanted) {
        if (next == held) {
            ssize_t got = read(0, ahead, sizeof ahead);
            if (got <= 0) break;
            next = 0;
            held = (size_t)got;
        }
        size_t piece = held - next < wanted - done ? held - next : wanted - done;
        memcpy(place + done, ahead + next, piece);
        next += piece;
        done += piece;
    }
    return done;
}

typedef struct { const uint8_t *at, *end; } Cursor;

static int word(Cursor *c, uint32_t *value) {
    if (c->end - c->at < 4) return 0;
    uint32_t bytes;
    memcpy(&bytes, c->at, 4);
    *value = __builtin_bswap32(bytes);
    c->at += 4;
    return 1;
}

static int skip(Cursor *c, size_t count) {
    if ((size_t)(c->end - c->at) < count) return 0;
    c->at += count;
    return 1;
}

typedef struct { uint64_t entries, malformed; } Counts;

/* Brings each datagram into the room for a walk over it, which says whether it is well formed; returns 0, or 5 where
 * the input is no capture. */
static int each_datagram(int (*walk)(Cursor), Counts *counts) {
    uint8_t head[12];
    if (take(head, 8) != 8 || memcmp(head, "SFLC\0\0\0\1", 8) != 0) return 5;
    while (take(head, 12) == 12) {
        Cursor at = {head + 8, head + 12};
        uint32_t length;
        word(&at, &length);
        if (length > 65535 || take(room, length + (-length & 3)) != length + (-length & 3)) return 5;
        counts->entries++;
        counts->malformed += !walk((Cursor){room, room + length});
    }
    return 0;
}
