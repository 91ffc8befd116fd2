#!/usr/bin/env python3
"""Makes chains and captures by a fixed generator, and compares what the built program makes of them with tools/plain_meaning.py: every file, byte
for byte, and the report, without lanes and over lanes.

Run at the top of the repository: tools/compare_plain.py [CASES [FIRST]], 300 cases from number 0 on where nothing is given.
"""
import os
import random
import struct
import subprocess
import sys
import tempfile

sys.dont_write_bytecode = True
TOP = os.path.join(os.path.dirname(os.path.abspath(__file__)), "..")
sys.path.insert(0, os.path.join(TOP, "examples"))
from packets import TCP, address, arp, datagram, ethernet, tcp, udp
from plain_meaning import REASONS, tenant_meaning

SERVERS = ["198.51.100.1", "198.51.100.2"]
OUTSIDE = "203.0.113.1"
PORTS = [53, 80, 443, 1000, 1001]
PROTOCOLS = {"tcp": 6, "udp": 17, "icmp": 1}
PREFIXES = ["0.0.0.0/0", "10.0.0.0/8", "10.0.0.0/30", "198.51.100.0/24", "198.51.100.1/32", "203.0.113.1/32"]


def host(random_):
    return "10.0.0.%d" % random_.randint(1, 4)


def mac(random_):
    return bytes([2, 0, 0, 0, 0, random_.randint(0, 255)])


# RECORDS


def tcp_frame(random_, starts, nat):
    """A segment of one of few connections, near its start: they come in any order, overlap and repeat."""
    inside, server = (host(random_), random_.choice(PORTS)), (random_.choice(SERVERS), random_.choice([80, 443]))
    inside = (inside[0], 1000 + random_.randint(0, 1))
    back = random_.random() < 0.4
    start = starts.setdefault((inside, server, back), random_.choice([0, 1000, 2**32 - 200, random_.randrange(2**32)]))
    flags = random_.choice([16, 16, 16, 24, 17, 2, 4, 18])
    letters = random_.choice([range(256), b"ab"])
    data = bytes(random_.choice(letters) for _ in range(random_.choice([0, 0, 1, 40, 64, 100, 200])))
    ahead = random_.choice([0, 0, 64, 100, 200, 300, 5000, -20, 2**31])
    source, destination = (server, inside) if back else (inside, server)
    if back and nat and random_.random() < 0.7:
        destination = (OUTSIDE, (nat["base"] + random_.randint(0, 4)) % 65536)
    return tcp(*source, *destination, (start + ahead) % 2**32, flags, data, random_.randrange(2**32), ttl=random_.choice([0, 1, 2, 64, 64, 64]), tos=random_.choice([0, 8]))


def udp_frame(random_, nat):
    inside, server = (host(random_), random_.choice(PORTS)), (random_.choice(SERVERS), 53)
    source, destination = (server, inside) if random_.random() < 0.4 else (inside, server)
    if source == server and nat and random_.random() < 0.7:
        destination = (OUTSIDE, (nat["base"] + random_.randint(0, 4)) % 65536)
    frame = udp(*source, *destination, bytes(random_.randint(0, 30)), ttl=random_.choice([1, 2, 64, 64, 64]))
    if random_.random() < 0.2:
        frame = frame[:40] + b"\0\0" + frame[42:]
    return frame


def other_frame(random_):
    kind = random_.randrange(6)
    if kind == 0:
        return arp()
    if kind == 1:
        return ethernet(datagram(host(random_), SERVERS[0], 1, bytes([8, 0, 0, 0, 0, 1, 0, 1])))
    if kind == 2:
        # a fragment: where in its datagram it stands is not 0
        frame = ethernet(datagram(host(random_), SERVERS[0], TCP, bytes(40)))
        return frame[:20] + struct.pack(">H", random_.choice([0x2000, 0x0010, 0x2010])) + frame[22:]
    if kind == 3:
        # an IPv4 header of 24 bytes
        frame = datagram(host(random_), SERVERS[1], 17, struct.pack(">IHHHH", 0x01010100, 1000, 53, 12, 0) + b"ping")
        return ethernet(b"\x46" + frame[1:])
    if kind == 4:
        return bytes(random_.randint(0, 40))
    return ethernet(datagram(host(random_), SERVERS[0], TCP, bytes(random_.randint(0, 24))))


def frames_of(random_, nat):
    starts = {}
    for _ in range(random_.choice([0, 1, 20, 60, 120])):
        kind = random_.random()
        frame = tcp_frame(random_, starts, nat) if kind < 0.6 else udp_frame(random_, nat) if kind < 0.88 else other_frame(random_)
        if random_.random() < 0.04:
            frame = frame[:random_.randint(0, len(frame))]
        if random_.random() < 0.04 and frame:
            at = random_.randrange(len(frame))
            frame = frame[:at] + bytes([frame[at] ^ 1 << random_.randrange(8)]) + frame[at + 1:]
        yield frame


def capture(records, order, nano):
    magic = 0xA1B23C4D if nano else 0xA1B2C3D4
    parts = [struct.pack(order + "IHHIIII", magic, 2, 4, 0, 0, 262144, 1)]
    for seconds, fraction, original, frame in records:
        parts.append(struct.pack(order + "IIII", seconds, fraction, len(frame), original) + frame)
    return b"".join(parts)


# CHAINS: each part as the plain meaning takes it, and as a text of the chain file


def text_of(value):
    if isinstance(value, bool):
        return "true" if value else "false"
    if isinstance(value, list):
        return "[%s]" % ", ".join(text_of(v) for v in value)
    if isinstance(value, dict):
        return "{ %s }" % ", ".join("%s = %s" % (k, text_of(v)) for k, v in value.items())
    return str(value) if isinstance(value, int) else '"%s"' % value


def prefix_of(text):
    base, bits = text.split("/")
    return int.from_bytes(address(base), "big"), int(bits)


def mac_text(value):
    return ":".join("%02x" % byte for byte in value)


def match_of(random_):
    choices = {"proto": lambda: random_.choice(list(PROTOCOLS)), "src": lambda: random_.choice(PREFIXES), "dst": lambda: random_.choice(PREFIXES),
               "sport": lambda: random_.choice(PORTS + [40000, 40001]), "dport": lambda: random_.choice(PORTS + [40000]), "port": lambda: random_.choice(PORTS)}
    words = {key: choices[key]() for key in random_.sample(list(choices), random_.choice([0, 1, 1, 2]))}
    meant = {key: PROTOCOLS[v] if key == "proto" else prefix_of(v) if key in ("src", "dst") else v for key, v in words.items()}
    return meant, words


def backends_of(random_):
    names = random_.sample(["a", "b", "c", "web-1", "web_2"], random_.randint(1, 4))
    macs = [mac(random_) for _ in names]
    return ([{"name": n.encode(), "mac": m} for n, m in zip(names, macs)], [{"name": n, "mac": mac_text(m)} for n, m in zip(names, macs)])


def stage_of(random_, kind):
    if kind == "set_tos":
        value = random_.randint(0, 255)
        return {"value": value}, {"value": value}
    if kind == "only":
        meant, words = match_of(random_)
        return {"match": meant}, {"match": words}
    if kind == "firewall":
        default, established = random_.choice(["allow", "deny"]), random_.random() < 0.6
        rules = [(random_.choice(["allow", "deny"]), match_of(random_) if random_.random() < 0.9 else None) for _ in range(random_.randint(0, 4))]
        return ({"default": default, "established": established, "rule": [{"verdict": v, "match": m and m[0]} for v, m in rules]},
                {"default": default, "established": established, "rule": [{"verdict": v, **({} if m is None else {"match": m[1]})} for v, m in rules]})
    if kind == "route":
        rows = [(p, mac(random_)) for p in random_.sample(PREFIXES, random_.randint(1, 4))]
        own = mac(random_)
        return ({"mac": own, "route": [{"to": prefix_of(p), "via": m} for p, m in rows]},
                {"mac": mac_text(own), "route": [{"to": p, "via": mac_text(m)} for p, m in rows]})
    if kind == "balance":
        first = backends_of(random_)
        froms = sorted(random_.sample(range(1, 60), random_.randint(0, 2)))
        later = [(f, backends_of(random_)) for f in froms]
        return ({"backend": first[0], "epoch": [{"from": f, "backend": b[0]} for f, b in later]},
                {"backend": first[1], "epoch": [{"from": f, "backend": b[1]} for f, b in later]})
    if kind == "window":
        sizes = {"size": random_.choice([64, 64, 100, 1460]), "reach": random_.choice([1460, 65536])}
        return dict(sizes), dict(sizes)
    if kind == "scan":
        text, reach = "".join(random_.choice("ab") for _ in range(random_.choice([1, 2, 5, 8, 12]))), random_.choice([1460, 65536])
        return {"find": text.encode(), "reach": reach}, {"find": text, "reach": reach}
    return {}, {}


def row_of(random_, nat, windows, most):
    """Some stages, at most one of them a window where one may stand here."""
    kinds = ["ttl", "set_tos", "only", "firewall", "route", "balance", "scan"] + (["nat", "nat"] if nat else []) + (["window", "window", "window"] if windows else [])
    meant, words = [], []
    for _ in range(random_.randint(0, most)):
        kind = random_.choice(kinds)
        if kind == "window":
            kinds = [k for k in kinds if k != "window"]
        m, w = stage_of(random_, kind)
        meant.append({"stage": kind, **m})
        words.append({"stage": kind, **w})
    return meant, words, "window" in kinds


def groups_of(random_, nat, windows, deep):
    meant, words = [], []
    for k in range(random_.randint(1, 3)):
        match = match_of(random_) if random_.random() < 0.7 else None
        stages, stage_words, free = row_of(random_, nat, windows, 2)
        group = {"match": match and match[0], "stages": stages}
        group_words = {"name": "g%d" % k, "stages": stage_words}
        if match:
            group_words["match"] = match[1]
        if deep and random_.random() < 0.4:
            group["group"], group_words["group"] = groups_of(random_, nat, free, False)
        else:
            group["into"] = random_.choice(["g%d" % k, "x", "y"])
            group_words["into"] = group["into"]
        meant.append(group)
        words.append(group_words)
    return meant, words


def chain_of(random_, name):
    nat = {"inside": "10.0.0.0/8", "outside": OUTSIDE, "base": random_.choice([40000, 65533]), "ports": random_.choice([1, 2, 3])} if random_.random() < 0.6 else None
    stages, stage_words, free = row_of(random_, nat, True, 4)
    groups, group_words = groups_of(random_, nat, free, True)
    most = random_.choice([65600, 65600, 150, 64])
    unparsed = random_.choice(["pass", "drop"])
    meant = {"bytes": most, "unparsed": unparsed, "stages": stages, "groups": groups,
             "nat": nat and {**nat, "inside": prefix_of(nat["inside"]), "outside": int.from_bytes(address(OUTSIDE), "big")}}
    words = {"name": name, "capture": name + ".in.pcap", "bytes": most, "unparsed": unparsed, "stages": stage_words, "group": group_words}
    if nat:
        words["nat"] = nat
    return meant, words


# CASES


def expected_of(name, chain, records, nano):
    """The files of the tenant, and its line."""
    outputs, accepted, drops = tenant_meaning(chain, records)
    files = {"%s.%s.pcap" % (name, output): capture([item[2:] for item in items], "<", nano) for output, items in outputs.items()}
    files[name + ".refused"] = b""
    counts = " ".join("%s=%d" % (reason, drops[reason]) for reason in REASONS)
    shown = "".join(" /%s=%d" % (output, len(items)) for output, items in outputs.items())
    return files, "%s done records=%d accepted=%d refused=0 %s%s\n" % (name, len(records), accepted, counts, shown)


def run_case(program, case, folder):
    random_ = random.Random(case)
    files, lines, tenants = {}, "", []
    for name in ["a", "b"][:random_.randint(1, 2)]:
        chain, words = chain_of(random_, name)
        nano = random_.random() < 0.3
        records = [(random_.randrange(2**32), random_.randrange(2**32), len(f) + random_.choice([0, 0, 100]), f) for f in frames_of(random_, chain["nat"])]
        with open(os.path.join(folder, name + ".in.pcap"), "wb") as file:
            file.write(capture(records, random_.choice("<>"), nano))
        # which may not be seen in what comes of it, nor may the number of workers
        words["buffers"] = [1, 2, 4, 256][case % 4]
        tenants.append(words)
        mine, line = expected_of(name, chain, records, nano)
        files.update(mine)
        lines += line
    with open(os.path.join(folder, "c.toml"), "w", encoding="ascii") as file:
        file.write("version = 2\ntenant = %s\n" % text_of(tenants))
    workers = [1, 2, 4, 16][case // 4 % 4]
    return (wrong_of([program, "inline"], folder, "out", files, lines)
            or wrong_of([program, "--workers", str(workers), "run"], folder, "lanes", files, lines))


def wrong_of(words, folder, out, files, lines):
    """What is wrong with the files, the report or the status of a run into a folder of this name."""
    told = " ".join(words[1:])
    os.mkdir(os.path.join(folder, out))
    run = subprocess.run(words + ["c.toml", out], cwd=folder, capture_output=True, text=True, check=False)
    if run.returncode != 0 or run.stdout != lines:
        return "%s: status %d, told\n%s and should tell\n%s" % (told, run.returncode, run.stdout, lines)
    if sorted(os.listdir(os.path.join(folder, out))) != sorted(files):
        return told + ": other files"
    for name, content in files.items():
        with open(os.path.join(folder, out, name), "rb") as file:
            if file.read() != content:
                return "%s: %s is another" % (told, name)
    return None


def main():
    cases = int(sys.argv[1]) if len(sys.argv) > 1 else 300
    first = int(sys.argv[2]) if len(sys.argv) > 2 else 0
    subprocess.run([os.path.join(TOP, "bricks")], capture_output=True, check=False)
    program = os.path.abspath(os.path.join(TOP, "crates/bricks_main/out/bricks_main"))
    failed = 0
    for case in range(first, first + cases):
        with tempfile.TemporaryDirectory() as folder:
            wrong = run_case(program, case, folder)
            if wrong:
                failed += 1
                print("case %d: %s" % (case, wrong))
    print("generated chains and captures: %d as the plain meaning, %d not" % (cases - failed, failed))
    return 1 if failed or not cases else 0


if __name__ == "__main__":
    sys.exit(main())
