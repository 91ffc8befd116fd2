"""What a chain makes of a capture, flow by flow, in plain Python: written from the formats and the standards, slowly, and without the program.

A chain is a dictionary: name, bytes, unparsed, nat, stages, groups. Frames are bytes. Ethernet II (RFC 894), IPv4 (RFC 791), UDP (RFC 768), TCP
(RFC 793), the Internet checksum (RFC 1071) and its update (RFC 1624).
"""
import struct
from collections import namedtuple

REASONS = "Big Unparsed Fire NoRoute Ttl NatFull Filter NoGroup Reach".split()
# a key of two numbers, times, the length on the link, and the frame
Item = namedtuple("Item", "a j seconds fraction original frame")
# where a layer stands: its header from start to middle, and its payload up to end
Layer = namedtuple("Layer", "start middle end")
# ports is None, or the source and the destination port
Tuple = namedtuple("Tuple", "proto src dst ports")
Flow = namedtuple("Flow", "number rank hash first opened")


def word(data, at):
    return data[at] * 256 + data[at + 1]


def number(data, at):
    return int.from_bytes(data[at:at + 4], "big")


def folded(total):
    return 0 if total == 0 else (total - 1) % 65535 + 1


def checksum(data):
    return 65535 - folded(sum(word(data + b"\0", k) for k in range(0, len(data), 2)))


def adjusted(ck, old, new):
    return 65535 - folded((65535 - ck) + (65535 - old) + new)


def with_bytes(data, at, part):
    return data[:at] + part + data[at + len(part):]


def with_word(data, at, value):
    return with_bytes(data, at, struct.pack(">H", value))


# LAYERS


def ip4_layer(frame):
    rest = frame[14:]
    if len(frame) < 14 or word(frame, 12) != 0x0800 or len(rest) < 20 or rest[0] >> 4 != 4:
        return None
    length = rest[0] % 16 * 4
    if length < 20 or length > len(rest) or word(rest, 2) < length:
        return None
    return Layer(14, 14 + length, 14 + max(length, min(word(rest, 2), len(rest))))


def is_whole(frame, ip4, protocol):
    return frame[ip4.start + 9] == protocol and word(frame, ip4.start + 6) % 16384 == 0


def tcp_layer(frame, ip4):
    rest = frame[ip4.middle:ip4.end]
    if not is_whole(frame, ip4, 6) or len(rest) < 20:
        return None
    length = rest[12] // 16 * 4
    return Layer(ip4.middle, ip4.middle + length, ip4.end) if 20 <= length <= len(rest) else None


def udp_layer(frame, ip4):
    rest = frame[ip4.middle:ip4.end]
    if not is_whole(frame, ip4, 17) or len(rest) < 8 or word(rest, 4) < 8:
        return None
    return Layer(ip4.middle, ip4.middle + 8, ip4.middle + max(8, min(word(rest, 4), len(rest))))


def tcp_of(frame):
    ip4 = ip4_layer(frame)
    return tcp_layer(frame, ip4) if ip4 else None


def tuple_of(frame):
    ip4 = ip4_layer(frame)
    if ip4 is None:
        return None
    above = tcp_layer(frame, ip4) or udp_layer(frame, ip4)
    ports = (word(frame, above.start), word(frame, above.start + 2)) if above else None
    return Tuple(frame[ip4.start + 9], number(frame, ip4.start + 12), number(frame, ip4.start + 16), ports)


# FLOWS


def fnv1a(data):
    value = 0xCBF29CE484222325
    for byte in data:
        value = (value ^ byte) * 0x100000001B3 % 2**64
    return value


def ends(t):
    ports = t.ports or (0, 0)
    return (t.src, ports[0]), (t.dst, ports[1])


def key_of(t):
    return (t.proto, *sorted(ends(t))) if t else None


def hash_of(t):
    if t is None:
        return fnv1a(b"")
    proto, low, high = key_of(t)
    return fnv1a(bytes([proto]) + struct.pack(">IHIH", *low, *high))


def is_within(prefix, address):
    base, bits = prefix
    return address >> (32 - bits) == base >> (32 - bits)


def is_reply(nat, t, flow):
    return (nat is not None and t is not None and t.ports is not None and flow.rank is not None and flow.rank < nat["ports"]
            and (t.dst, t.ports[1]) == (nat["outside"], nat["base"] + flow.rank)
            and flow.first.proto == t.proto and ends(t)[0] == ends(flow.first)[1])


def classes(nat, frames):
    """The flow of each record, and whether it goes back."""
    flows = []
    found = []
    for k, frame in enumerate(frames):
        t = tuple_of(frame)
        reply = next((f for f in flows if is_reply(nat, t, f)), None)
        same = next((f for f in flows if key_of(f.first) == key_of(t)), None)
        if reply is not None:
            found.append((reply.number, True))
        elif same is not None:
            found.append((same.number, t is not None and ends(t)[0] != ends(same.first)[0]))
        else:
            ranked = nat is not None and t is not None and t.ports is not None and is_within(nat["inside"], t.src)
            rank = sum(f.rank is not None for f in flows) if ranked else None
            flows.append(Flow(len(flows), rank, hash_of(t), t, k))
            found.append((len(flows) - 1, False))
    return flows, found


# STAGES: each is given the flow, and its items as pairs of whether they go back and the item, and how many records the capture has. It gives
# what passes, and the reasons of what is dropped.


def meets(match, t):
    if t is None:
        return not match
    ports = t.ports

    def port(key, test):
        return key not in match or (ports is not None and test(match[key]))

    return (("proto" not in match or match["proto"] == t.proto)
            and ("src" not in match or is_within(match["src"], t.src)) and ("dst" not in match or is_within(match["dst"], t.dst))
            and port("sport", lambda p: ports[0] == p) and port("dport", lambda p: ports[1] == p) and port("port", lambda p: p in ports))


def edited_word(frame, at, check, value):
    """The word at a place, and the checksum at another, adjusted for that."""
    ck = adjusted(word(frame, check), word(frame, at), value)
    return with_word(with_word(frame, at, value), check, ck)


def one_by_one(treat):
    """A stage that treats each item alone: treat gives a frame, or a reason."""

    def stage(flow, items, records):
        passed, dropped = [], []
        for back, item in items:
            made = treat(flow, back, item.frame)
            if isinstance(made, str):
                dropped.append(made)
            else:
                passed.append((back, item._replace(frame=made)))
        return passed, dropped

    return stage


def lowered(frame):
    ip4 = ip4_layer(frame)
    if ip4 is None:
        return frame
    ttl = frame[ip4.start + 8]
    return "Ttl" if ttl <= 1 else edited_word(frame, ip4.start + 8, ip4.start + 10, (ttl - 1) * 256 + frame[ip4.start + 9])


def with_tos(frame, value):
    ip4 = ip4_layer(frame)
    return frame if ip4 is None else edited_word(frame, ip4.start, ip4.start + 10, frame[ip4.start] * 256 + value)


def only(match, frame):
    t = tuple_of(frame)
    return frame if t is None or meets(match, t) else "Filter"


def routed(stage, frame):
    t = tuple_of(frame)
    if t is None:
        return frame
    rows = [row for row in stage["route"] if is_within(row["to"], t.dst)]
    if not rows:
        return "NoRoute"
    made = lowered(frame)
    return made if isinstance(made, str) else max(rows, key=lambda row: row["to"][1])["via"] + stage["mac"] + made[12:]


def translated(nat, flow, back, frame):
    if flow.rank is None:
        return frame
    if flow.rank >= nat["ports"]:
        return "NatFull"
    ip4 = ip4_layer(frame)
    tcp, udp = (tcp_layer(frame, ip4), udp_layer(frame, ip4)) if ip4 else (None, None)
    if tcp is None and udp is None:
        return frame
    if back:
        address, port, place = flow.first.src, flow.first.ports[0], 16
    else:
        address, port, place = nat["outside"], nat["base"] + flow.rank, 12
    old = number(frame, ip4.start + place)
    changes = [(old >> 16, address >> 16), (old % 65536, address % 65536)]
    for k, (_, new) in enumerate(changes):
        frame = edited_word(frame, ip4.start + place + 2 * k, ip4.start + 10, new)
    above = tcp or udp
    check = above.start + (16 if tcp else 6)
    at = above.start + (2 if back else 0)
    for before, after in changes + [(word(frame, at), port)]:
        ck = word(frame, check)
        if tcp:
            frame = with_word(frame, check, adjusted(ck, before, after))
        elif ck != 0:
            frame = with_word(frame, check, adjusted(ck, before, after) or 65535)
    return with_word(frame, at, port)


def table(names):
    places = [None] * 251
    for k in range(251):
        name = names[k % len(names)]
        offset, skip = fnv1a(b"\1" + name) % 251, fnv1a(b"\2" + name) % 250 + 1
        place = next(p for p in ((offset + j * skip) % 251 for j in range(251)) if places[p] is None)
        places[place] = k % len(names)
    return places


def balanced(stage, flow, frame):
    if tuple_of(frame) is None:
        return frame
    backends = stage["backend"]
    for epoch in stage["epoch"]:
        if epoch["from"] <= flow.opened:
            backends = epoch["backend"]
    return backends[table([b["name"] for b in backends])[flow.hash % 251]]["mac"] + frame[6:]


def firewall(stage):
    def allows(frame):
        t = tuple_of(frame)
        if t is None:
            return True
        verdicts = [rule["verdict"] for rule in stage["rule"] if rule["match"] is None or meets(rule["match"], t)]
        return (verdicts or [stage["default"]])[0] == "allow"

    def treat(flow, items, records):
        passed, dropped = [], []
        is_open = False
        for back, item in items:
            if (stage["established"] and back and is_open) or allows(item.frame):
                passed.append((back, item))
            else:
                dropped.append("Fire")
            is_open = is_open or (not back and allows(item.frame))
        return passed, dropped

    return treat


# WINDOWS


class Stream:
    """The bytes of a direction in order: of each position the payload decides that came first."""

    def __init__(self):
        self.base = None
        self.bytes = {}
        self.ready = 0
        self.last = None

    def take(self, frame, tcp, reach):
        """Whether the segment's payload counts."""
        payload = frame[tcp.middle:tcp.end]
        start = (number(frame, tcp.start + 4) + (frame[tcp.start + 13] >> 1 & 1)) % 2**32
        if self.base is None:
            self.base = start
        place = (start - self.base - self.ready + 2**31) % 2**32 + self.ready - 2**31
        if not payload or place + len(payload) > min(self.ready + reach, 2**62):
            return False
        for k, byte in enumerate(payload):
            if place + k >= 0:
                self.bytes.setdefault(place + k, byte)
        while self.ready in self.bytes:
            self.ready += 1
        return True

    def part(self, at, count):
        return bytes(self.bytes[q] for q in range(at, at + count))


def pseudo(ip4_header, length):
    return ip4_header[12:20] + bytes([0, ip4_header[9]]) + struct.pack(">H", length)


def emitted(item, stream, a, j, at, data):
    """A frame of these bytes, as the item's says all else."""
    frame = item.frame
    ip4 = ip4_layer(frame)
    tcp = tcp_layer(frame, ip4)
    header = struct.pack(">BBHHHBBH", 0x45, frame[ip4.start + 1], 40 + len(data), 0, 0x4000, frame[ip4.start + 8], 6, 0) + frame[ip4.start + 12:ip4.start + 20]
    header = with_word(header, 10, checksum(header))
    segment = frame[tcp.start:tcp.start + 4] + struct.pack(">I", (stream.base + at) % 2**32) + frame[tcp.start + 8:tcp.start + 12]
    segment += b"\x50\x18" + frame[tcp.start + 14:tcp.start + 16] + bytes(4) + data
    segment = with_word(segment, 16, checksum(pseudo(header, len(segment)) + segment))
    return Item(a, j, item.seconds, item.fraction, 54 + len(data), frame[:12] + b"\x08\x00" + header + segment)


def bare(item):
    frame = item.frame
    ip4 = ip4_layer(frame)
    tcp = tcp_layer(frame, ip4)
    header = with_word(frame[ip4.start:ip4.middle], 2, tcp.middle - ip4.start)
    header = with_word(header, 10, checksum(with_word(header, 10, 0)))
    segment = frame[tcp.start:tcp.middle]
    if segment[13] & 2 == 0:
        segment = with_bytes(segment, 4, struct.pack(">I", (number(segment, 4) + tcp.end - tcp.middle) % 2**32))
    segment = with_word(segment, 16, 0)
    segment = with_word(segment, 16, checksum(pseudo(header, len(segment)) + segment))
    made = frame[:ip4.start] + header + segment
    return item._replace(original=len(made), frame=made)


def window(stage):
    size, reach = stage["size"], stage["reach"]

    def treat(flow, items, records):
        streams = {False: Stream(), True: Stream()}
        passed, dropped = [], []
        for back, item in items:
            tcp = tcp_of(item.frame)
            stream = streams[back]
            before = stream.ready
            counts = tcp is not None and stream.take(item.frame, tcp, reach)
            if tcp is None or tcp.middle == tcp.end:
                passed.append((back, item))
            elif not counts:
                dropped.append("Reach")
            else:
                stream.last = item
                if item.frame[tcp.start + 13] & 7:
                    passed.append((back, bare(item)))
                for j, i in enumerate(range(before // size, stream.ready // size), 1):
                    passed.append((back, emitted(item, stream, item.a, j, i * size, stream.part(i * size, size))))
        for back in (False, True):
            stream = streams[back]
            rest = stream.ready % size
            if rest:
                at = stream.ready - rest
                passed.append((back, emitted(stream.last, stream, records + flow.number, int(back), at, stream.part(at, rest))))
        return passed, dropped

    return treat


# SCANS


def scan(stage):
    text, reach = stage["find"], stage["reach"]

    def treat(flow, items, records):
        streams = {False: Stream(), True: Stream()}
        passed, dropped = [], []
        for back, item in items:
            tcp = tcp_of(item.frame)
            if tcp is not None:
                streams[back].take(item.frame, tcp, reach)
            if tcp is not None and any(text in stream.part(0, stream.ready) for stream in streams.values()):
                dropped.append("Filter")
            else:
                passed.append((back, item))
        return passed, dropped

    return treat


def stage_of(stage, nat):
    kind = stage["stage"]
    if kind == "ttl":
        return one_by_one(lambda flow, back, frame: lowered(frame))
    if kind == "set_tos":
        return one_by_one(lambda flow, back, frame: with_tos(frame, stage["value"]))
    if kind == "only":
        return one_by_one(lambda flow, back, frame: only(stage["match"], frame))
    if kind == "route":
        return one_by_one(lambda flow, back, frame: routed(stage, frame))
    if kind == "nat":
        return one_by_one(lambda flow, back, frame: translated(nat, flow, back, frame))
    if kind == "balance":
        return one_by_one(lambda flow, back, frame: balanced(stage, flow, frame))
    return {"firewall": firewall, "window": window, "scan": scan}[kind](stage)


# CHAINS


def through(stages, nat, flow, items, records, drops):
    for stage in stages:
        items, dropped = stage_of(stage, nat)(flow, items, records)
        drops += dropped
    return items


def share(groups, chain, flow, items, records, drops, outputs):
    """Each item goes to the first group that takes it."""
    taken = [[] for _ in groups]
    for back, item in items:
        t = tuple_of(item.frame)
        place = next((k for k, group in enumerate(groups) if group["match"] is None or meets(group["match"], t)), None)
        if place is None:
            drops.append("NoGroup")
        else:
            taken[place].append((back, item))
    for group, mine in zip(groups, taken):
        left = through(group["stages"], chain["nat"], flow, mine, records, drops)
        if "group" in group:
            share(group["group"], chain, flow, left, records, drops, outputs)
        else:
            outputs[group["into"]] += [item for _, item in left]


def output_names(groups):
    for group in groups:
        if "group" in group:
            yield from output_names(group["group"])
        else:
            yield group["into"]


def tenant_meaning(chain, records):
    """What the chain makes of records (seconds, fraction, original, frame): the items of each output in the order of keys, how many records were
    accepted, and how many were dropped for each reason."""
    flows, found = classes(chain["nat"], [record[3] for record in records])
    drops = []
    outputs = {name: [] for name in output_names(chain["groups"])}
    came = {flow.number: [] for flow in flows}
    accepted = 0
    for k, (record, (flow, back)) in enumerate(zip(records, found)):
        if len(record[3]) > chain["bytes"]:
            drops.append("Big")
            continue
        accepted += 1
        came[flow].append((back, Item(k, 0, *record)))
    for flow in flows:
        items = came[flow.number]
        if not items:
            continue
        if chain["unparsed"] == "drop" and flow.first is None:
            drops += ["Unparsed"] * len(items)
            items = []
        left = through(chain["stages"], chain["nat"], flow, items, len(records), drops)
        share(chain["groups"], chain, flow, left, len(records), drops, outputs)
    for items in outputs.values():
        items.sort(key=lambda item: (item.a, item.j))
    return outputs, accepted, {reason: drops.count(reason) for reason in REASONS}
