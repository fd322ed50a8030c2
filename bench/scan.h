/* What a sampled header says, by a plain scan: its kind, VLAN, type, protocol, addresses, ports and control bits; -1 where
 * it doesn't say it. At most 128 bytes are looked at. */
#include <stdint.h>
#include <string.h>

enum kind { UNSCANNED, SHORT, LENGTH, UNDEFINED, ARP, IPV4, IPV6, OTHER, BAD_IP };

typedef struct {
    enum kind kind;
    int vlan, ethertype, proto, src_port, dst_port, flags;
    int address;
    uint8_t src[16], dst[16];
} Facts;

static uint16_t number(const uint8_t *h, size_t at) { return (uint16_t)(h[at] << 8 | h[at + 1]); }

static void transport(Facts *f, const uint8_t *h, size_t n, size_t s) {
    if ((f->proto != 6 && f->proto != 17) || s + 4 > n) return;
    f->src_port = number(h, s);
    f->dst_port = number(h, s + 2);
    if (f->proto == 6 && s + 14 <= n) f->flags = h[s + 13];
}

static void ipv4(Facts *f, const uint8_t *h, size_t n, size_t b) {
    if (b + 20 > n) { f->kind = SHORT; return; }
    if (h[b] >> 4 != 4 || (h[b] & 15) < 5) { f->kind = BAD_IP; return; }
    f->kind = IPV4;
    f->proto = h[b + 9];
    f->address = 4;
    memcpy(f->src, h + b + 12, 4);
    memcpy(f->dst, h + b + 16, 4);
    if ((number(h, b + 6) & 8191) == 0) transport(f, h, n, b + 4 * (h[b] & 15u));
}

static void ipv6(Facts *f, const uint8_t *h, size_t n, size_t b) {
    if (b + 40 > n) { f->kind = SHORT; return; }
    if (h[b] >> 4 != 6) { f->kind = BAD_IP; return; }
    f->kind = IPV6;
    f->proto = h[b + 6];
    f->address = 6;
    memcpy(f->src, h + b + 8, 16);
    memcpy(f->dst, h + b + 24, 16);
    transport(f, h, n, b + 40);
}

static int is_tag(uint16_t type) { return type == 0x8100 || type == 0x88a8; }

static void scan(Facts *f, uint32_t protocol, const uint8_t *h, size_t n) {
    size_t at = 12;
    uint16_t type;
    int tags = 0;
    f->kind = UNSCANNED;
    f->vlan = f->ethertype = f->proto = f->src_port = f->dst_port = f->flags = -1;
    f->address = 0;
    if (protocol == 11) { ipv4(f, h, n, 0); return; }
    if (protocol == 12) { ipv6(f, h, n, 0); return; }
    if (protocol != 1) return;
    f->kind = SHORT;
    if (n < 14) return;
    type = number(h, at);
    if (is_tag(type) && n >= 16) f->vlan = number(h, 14) & 4095;
    while (is_tag(type) && tags < 2) {
        if (at + 6 > n) return;
        at += 4;
        tags++;
        type = number(h, at);
    }
    if (type <= 1500) { f->kind = LENGTH; return; }
    if (type <= 1535) { f->kind = UNDEFINED; return; }
    f->ethertype = type;
    switch (type) {
    case 0x0806: f->kind = ARP; break;
    case 0x0800: ipv4(f, h, n, at + 2); break;
    case 0x86dd: ipv6(f, h, n, at + 2); break;
    default: f->kind = OTHER;
    }
}
