#!/usr/bin/env python3
"""Makes a classic pcap file of the datagrams of a capture of version 1, each in a UDP datagram to port 6343 over IPv4
and Ethernet, with the arrival of its entry.

    bench/make_pcap.py CAPTURE FILE
"""
import struct
import sys

HEADER = struct.pack("<IHHIIII", 0xA1B2C3D4, 2, 4, 0, 0, 65535, 1)
ETHERNET = bytes(12) + b"\x08\x00"
FROM, TO = bytes((10, 0, 0, 9)), bytes((10, 0, 0, 254))


def packet(arrival, datagram):
    udp = struct.pack(">HHHH", 49152, 6343, 8 + len(datagram), 0) + datagram
    ip = struct.pack(">BBHHHBBH", 0x45, 0, 20 + len(udp), 0, 0, 64, 17, 0) + FROM + TO
    frame = ETHERNET + ip + udp
    return struct.pack("<IIII", arrival // 1000, arrival % 1000 * 1000, len(frame), len(frame)) + frame


def main():
    with open(sys.argv[1], "rb") as file:
        capture = file.read()
    at = 8
    with open(sys.argv[2], "wb") as out:
        out.write(HEADER)
        while at < len(capture):
            arrival, length = struct.unpack_from(">QI", capture, at)
            out.write(packet(arrival, capture[at + 12 : at + 12 + length]))
            at += 12 + length + -length % 4


if __name__ == "__main__":
    main()
