/* The sequence numbers that are missing in a capture. Of each stream (an agent's address and a sub-agent) and of each
 * source (a stream, a kind of samples, a class and an index) the last number is kept in a table, and what lies between
 * that number and the next one is added. */
#include "capture.h"

/* A record of a flow sample whose number is beyond those before; each walk says what it makes of it. */
static int flow_record(uint32_t format, Cursor c);

/* A key: the address with its kind, the sub-agent, and of a source its kind of samples, its class and its index. */
typedef struct { uint32_t part[9]; } Key;
typedef struct { Key key; uint32_t used, last; } Slot;

enum { SLOTS = 1 << 17 };
static Slot slots[SLOTS];
static uint64_t keys, missing;

/* Counts what lies between the last number and this one; whether this one is beyond the last. */
static int count(const Key *key, uint32_t sequence) {
    uint64_t hash = 0xcbf29ce484222325u;
    for (int i = 0; i < 9; i++) hash = (hash ^ key->part[i]) * 0x9e3779b97f4a7c15u, hash ^= hash >> 29;
    size_t place = hash & (SLOTS - 1);
    while (slots[place].used && memcmp(&slots[place].key, key, sizeof *key) != 0) place = (place + 1) & (SLOTS - 1);
    if (!slots[place].used) {
        if (keys + 1 == SLOTS) return 0;
        slots[place].key = *key;
        slots[place].used = 1;
        keys++;
    } else {
        int32_t ahead_by = (int32_t)(sequence - slots[place].last);
        if (ahead_by <= 0) return 0;
        missing += (uint32_t)ahead_by - 1;
    }
    slots[place].last = sequence;
    return 1;
}

static int address(Cursor *c, Key *key) {
    if (!word(c, &key->part[0]) || key->part[0] > 2) return 0;
    size_t length = key->part[0] == 0 ? 0 : key->part[0] == 1 ? 4 : 16;
    if ((size_t)(c->end - c->at) < length) return 0;
    memcpy(&key->part[1], c->at, length);
    return skip(c, length);
}

/* The records of a sample, by their lengths; each of a flow sample that is beyond those before goes to the walk above. */
static int records(Cursor *c, int is_flow) {
    uint32_t left, format, length;
    if (!word(c, &left)) return 0;
    while (left-- > 0) {
        if (!word(c, &format) || !word(c, &length) || (size_t)(c->end - c->at) < length) return 0;
        if (is_flow && !flow_record(format, (Cursor){c->at, c->at + length})) return 0;
        c->at += length;
        if (!skip(c, -length & 3)) return 0;
    }
    return 1;
}

/* A sample of a source: which words of it are its sequence number, its class and its index depends on the format. */
static int sample(uint32_t format, Cursor c, Key key) {
    uint32_t sequence, source, index;
    if (format < 1 || format > 4) return 1;
    if (!word(&c, &sequence) || !word(&c, &source)) return 0;
    index = source & 0xffffff;
    source >>= 24;
    if (format > 2) {
        c.at -= 4;
        if (!word(&c, &source) || !word(&c, &index)) return 0;
    }
    if (!skip(&c, format == 1 ? 20 : format == 3 ? 28 : 0)) return 0;
    key.part[6] = 1 + (format & 1);
    key.part[7] = source;
    key.part[8] = index;
    return records(&c, count(&key, sequence) && (format & 1));
}

static int datagram(Cursor c) {
    Key key = {{0}};
    uint32_t version, sequence, uptime, left, format, length;
    if (!word(&c, &version) || version != 5 || !address(&c, &key) || !word(&c, &key.part[5])) return 0;
    if (!word(&c, &sequence) || !word(&c, &uptime) || !word(&c, &left)) return 0;
    count(&key, sequence);
    while (left-- > 0) {
        if (!word(&c, &format) || !word(&c, &length) || (size_t)(c.end - c.at) < length) return 0;
        if (!sample(format, (Cursor){c.at, c.at + length}, key)) return 0;
        c.at += length;
        if (!skip(&c, -length & 3)) return 0;
    }
    return c.at == c.end;
}
