#!/usr/bin/env python3
"""Writes the generated capture of a number and so many records, and prints its length, its FNV-1a (64 bits) and its SHA-256:
make_gen.py NUMBER COUNT [CAPTURE]

It is made from the formats and not by the program. The tests of the crate `capture_gen` have the lengths and the hashes that it prints.
"""
import hashlib
import os
import sys

sys.dont_write_bytecode = True
sys.path.insert(0, os.path.join(os.path.dirname(os.path.abspath(__file__)), "..", "examples"))
from packets import ACK, PSH, arp, capture, tcp, udp, write

SERVER = "198.51.100.2"


def records(number, count):
    """Record k, a millisecond after the one before it, is of the high half of the number after k + 1 steps."""
    tcp_records = [0] * 8
    for k in range(count):
        number = (number * 6364136223846793005 + 1442695040888963407) % 2**64
        high = number // 2**32
        kind, host = high % 20, high // 256 % 8
        client = "10.0.0.%d" % (1 + host)
        if kind == 0:
            frame = arp()
        elif kind < 10:
            frame = udp(client, 1000, SERVER, 53, bytes([k % 256]) * 32)
        else:
            frame = tcp(client, 2000, SERVER, 80, 1 + 100 * tcp_records[host], PSH | ACK, bytes([k % 256]) * 100)
            tcp_records[host] += 1
        yield (k // 1000, k % 1000 * 1000, frame)


def fnv1a(data):
    value = 0xCBF29CE484222325
    for byte in data:
        value = (value ^ byte) * 0x100000001B3 % 2**64
    return value


def main():
    data = capture(records(int(sys.argv[1]), int(sys.argv[2])))
    if len(sys.argv) > 3:
        write(sys.argv[3], data)
    print("length=%d fnv1a=%016x sha256=%s" % (len(data), fnv1a(data), hashlib.sha256(data).hexdigest()))


if __name__ == "__main__":
    main()
