/* A plain walk over a capture, for measurements: as the walk of gaps.c, with a scan of each sampled header of a flow sample
 * whose number is beyond those before. It counts the headers by their kinds, those with a VLAN, with TCP and with UDP, and their frame
 * lengths and destination ports, as `sflow replay` and its three consumers do. It prints how many entries, malformed
 * entries, keys and missing numbers there are, the line of the classes, and the lines of the consumers.
 *   cc -O2 -o kinds bench/kinds.c && ./kinds < CAPTURE */
#include <stdio.h>

#include "gaps.h"
#include "scan.h"

static uint64_t kinds[BAD_IP + 1], tagged, tcp, udp, headers, lengths[7], ports[65536];

static int length_class(uint32_t length) {
    static const uint32_t least[] = {65, 128, 256, 512, 1024, 1519};
    int class = 0;
    while (class < 6 && length >= least[class]) class++;
    return class;
}

static int flow_record(uint32_t format, Cursor c) {
    uint32_t protocol, frame, stripped, length;
    Facts facts;
    if (format != 1) return 1;
    if (!word(&c, &protocol) || !word(&c, &frame) || !word(&c, &stripped) || !word(&c, &length)) return 0;
    if ((size_t)(c.end - c.at) < length) return 0;
    scan(&facts, protocol, c.at, length < 128 ? length : 128);
    kinds[facts.kind]++;
    tagged += facts.vlan >= 0;
    tcp += facts.proto == 6;
    udp += facts.proto == 17;
    headers++;
    lengths[length_class(frame)]++;
    if (facts.dst_port >= 0) ports[facts.dst_port]++;
    return 1;
}

static void print_lines(void) {
    static const char *const names[] = {"unscanned", "short", "length", "undefined", "arp", "ipv4", "ipv6", "other", "badip"};
    size_t busiest = 0;
    printf("headers");
    for (int kind = 0; kind <= BAD_IP; kind++) printf(" %s %llu", names[kind], (unsigned long long)kinds[kind]);
    printf(" tagged %llu tcp %llu udp %llu\ntap length", (unsigned long long)tagged, (unsigned long long)tcp, (unsigned long long)udp);
    for (int class = 0; class < 7; class++) printf(" %llu", (unsigned long long)lengths[class]);
    for (size_t port = 0; port < 65536; port++)
        if (ports[port] > ports[busiest]) busiest = port;
    printf("\ntap port %zu count %llu\ntap headers %llu\n", busiest, (unsigned long long)ports[busiest], (unsigned long long)headers);
}

int main(void) {
    Counts counts = {0, 0};
    if (each_datagram(datagram, &counts) != 0) return 5;
    printf("entries %llu malformed %llu keys %llu missing %llu\n", (unsigned long long)counts.entries,
           (unsigned long long)counts.malformed, (unsigned long long)keys, (unsigned long long)missing);
    if (headers > 0) print_lines();
    return counts.malformed > 0;
}
