"""Frames and captures made from their formats, for the examples: Ethernet II (RFC 894), IPv4 (RFC 791), UDP (RFC 768), TCP (RFC 793)
and the classic pcap format, version 2.4."""
import os
import struct

HERE = bytes.fromhex("020000000002")
THERE = bytes.fromhex("020000000001")
UDP = 17
TCP = 6
FIN, SYN, RST, PSH, ACK = 1, 2, 4, 8, 16


def address(text):
    return bytes(int(part) for part in text.split("."))


def checksum(data):
    """The Internet checksum (RFC 1071)."""
    if len(data) % 2:
        data += b"\0"
    total = sum(struct.unpack(">%dH" % (len(data) // 2), data))
    while total > 0xFFFF:
        total = (total & 0xFFFF) + (total >> 16)
    return 0xFFFF - total


def ethernet(payload, kind=0x0800, destination=THERE, source=HERE):
    return destination + source + struct.pack(">H", kind) + payload


def datagram(source, destination, protocol, payload, ttl=64, tos=0):
    header = struct.pack(">BBHHHBBH", 0x45, tos, 20 + len(payload), 0, 0x4000, ttl, protocol, 0) + address(source) + address(destination)
    return header[:10] + struct.pack(">H", checksum(header)) + header[12:] + payload


def pseudo_header(source, destination, protocol, length):
    return address(source) + address(destination) + struct.pack(">BBH", 0, protocol, length)


def udp(source, sport, destination, dport, data, ttl=64, tos=0, **link):
    segment = struct.pack(">HHHH", sport, dport, 8 + len(data), 0) + data
    value = checksum(pseudo_header(source, destination, UDP, len(segment)) + segment) or 0xFFFF
    segment = segment[:6] + struct.pack(">H", value) + segment[8:]
    return ethernet(datagram(source, destination, UDP, segment, ttl, tos), **link)


def tcp(source, sport, destination, dport, sequence, flags, data=b"", acknowledgement=0, window=65535, ttl=64, tos=0, **link):
    segment = struct.pack(">HHIIBBHHH", sport, dport, sequence % 2**32, acknowledgement, 0x50, flags, window, 0, 0) + data
    value = checksum(pseudo_header(source, destination, TCP, len(segment)) + segment)
    segment = segment[:16] + struct.pack(">H", value) + segment[18:]
    return ethernet(datagram(source, destination, TCP, segment, ttl, tos), **link)


def arp():
    """A frame that is no IPv4: Ethernet type 0806 and 46 zero bytes."""
    return ethernet(bytes(46), kind=0x0806, destination=b"\xff" * 6)


def at(k, frame):
    """Record k: a record a millisecond."""
    return (1700000000 + k // 1000, k % 1000 * 1000, frame)


def capture(records, order="<", nanoseconds=False):
    """In a byte order, with microseconds or nanoseconds; each record is its seconds, its fraction and its frame."""
    magic = 0xA1B23C4D if nanoseconds else 0xA1B2C3D4
    parts = [struct.pack(order + "IHHIIII", magic, 2, 4, 0, 0, 262144, 1)]
    for seconds, fraction, frame in records:
        parts.append(struct.pack(order + "IIII", seconds, fraction, len(frame), len(frame)) + frame)
    return b"".join(parts)


def line(name, accepted, outputs, **drops):
    """The line of a tenant that is done."""
    counts = " ".join("%s=%d" % (reason, drops.get(reason, 0)) for reason in "Big Unparsed Fire NoRoute Ttl NatFull Filter NoGroup Reach".split())
    records = accepted + drops.get("Big", 0)
    return "%s done records=%d accepted=%d refused=0 %s%s\n" % (name, records, accepted, counts, "".join(" /%s=%d" % o for o in outputs))


def write(name, content):
    """Writes a file of the example, in whose folder the script runs."""
    if os.path.dirname(name):
        os.makedirs(os.path.dirname(name), exist_ok=True)
    with open(name, "wb") as file:
        file.write(content if isinstance(content, bytes) else content.encode())
