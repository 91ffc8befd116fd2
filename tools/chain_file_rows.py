#!/usr/bin/env python3
"""Chain files, each with the line that the reference says of it: at least one for each fault at each kind of place, and the limits.

Run at the top of the repository: tools/chain_file_rows.py [PROGRAM]. Each file is checked for the folder `out`; nothing is written. The
wanted lines are written here by docs/CHAIN-FILE.md, and not by the program.
"""
import os
import subprocess
import sys
import tempfile

MAC = '"02:00:00:00:00:01"'
NAT = 'nat = { inside = "10.0.0.0/8", outside = "203.0.113.1", base = 40000, ports = 1000 }\n'
WINDOW = '{ stage = "window", size = 64 }'
ALL = '{ name = "all" }'


def tenant(name='name = "a"', capture='capture = "in.pcap"', more="", stages=None, group=ALL):
    listed = "" if stages is None else "stages = [%s]\n" % stages
    groups = "" if group is None else "group = [%s]\n" % group
    return "[[tenant]]\n%s\n%s\n%s%s%s" % (name, capture, more, listed, groups)


def file(*tenants, version=1):
    return "version = %d\n%s" % (version, "".join(tenants))


def one(version=1, **parts):
    return file(tenant(**parts), version=version)


def stage(text, **parts):
    return one(stages="{ %s }" % text, **parts)


def match(text):
    return stage('stage = "only", match = { %s }' % text)


def rule(text):
    return stage('stage = "firewall", default = "deny", rule = [%s]' % text)


def routes(*rows):
    return stage('stage = "route", mac = %s, route = [%s]' % (MAC, ", ".join(rows)))


def row(to, via=MAC):
    return '{ to = "%s", via = %s }' % (to, via)


def backend(name, mac=MAC):
    return '{ name = "%s", mac = %s }' % (name, mac)


def balance(backends, epochs=None):
    return stage('stage = "balance", backend = [%s]%s' % (backends, "" if epochs is None else ", epoch = [%s]" % epochs))


def nat(inside='"10.0.0.0/8"', outside='"203.0.113.1"', base="40000", ports="1000", more=""):
    keys = [("inside", inside), ("outside", outside), ("base", base), ("ports", ports)]
    return one(more="nat = { %s%s }\n" % (", ".join("%s = %s" % k for k in keys if k[1] is not None), more))


def inner(groups, more=""):
    return one(version=2, group='{ name = "g"%s, group = [%s] }' % (more, groups))


def named(name):
    return tenant(name='name = "%s"' % name, capture='capture = "%s.pcap"' % name)


def missing(place, key):
    return "2 Missing place=%d key=%s" % (place, key)


def unknown(place, key):
    return "3 Unknown place=%d key=%s" % (place, key)


def beyond(place, key):
    return "4 Range place=%d key=%s" % (place, key)


def name(place):
    return "5 Name place=%d" % place


def windows(place):
    return "6 SecondWindow place=%d" % place


def times(count, text, between=", "):
    return between.join(text % k if "%" in text else text for k in range(count))


REFUSED = [
    # 1
    ("version = \n", "1 NotToml"),
    ("version = 1\nversion = 1\n", "1 NotToml"),
    (b"version = 1 # \xff\n", "1 NotToml"),
    # 2, at each kind of table
    ("", missing(0, "version")),
    ("version = 1\n", missing(0, "tenant")),
    (one(name=""), missing(1, "name")),
    (one(capture=""), missing(1, "capture")),
    (one(group=None), missing(1, "group")),
    (file(named("a"), tenant(name='name = "b"', capture="")), missing(2, "capture")),
    (nat(inside=None), missing(1, "inside")),
    (nat(outside=None), missing(1, "outside")),
    (nat(base=None), missing(1, "base")),
    (nat(ports=None), missing(1, "ports")),
    (one(group='{ into = "x" }'), missing(1, "name")),
    (inner('{ into = "x" }'), missing(1, "name")),
    (stage("value = 1"), missing(1, "stage")),
    (stage('stage = "set_tos"'), missing(1, "value")),
    (stage('stage = "only"'), missing(1, "match")),
    (stage('stage = "firewall"'), missing(1, "default")),
    (rule("{ match = { } }"), missing(1, "verdict")),
    (stage('stage = "route", route = [%s]' % row("0.0.0.0/0")), missing(1, "mac")),
    (stage('stage = "route", mac = %s' % MAC), missing(1, "route")),
    (routes("{ via = %s }" % MAC), missing(1, "to")),
    (routes('{ to = "0.0.0.0/0" }'), missing(1, "via")),
    (stage('stage = "balance"'), missing(1, "backend")),
    (balance("{ mac = %s }" % MAC), missing(1, "name")),
    (balance('{ name = "one" }'), missing(1, "mac")),
    (balance(backend("one"), "{ backend = [%s] }" % backend("one")), missing(1, "from")),
    (balance(backend("one"), "{ from = 5 }"), missing(1, "backend")),
    (stage('stage = "window"'), missing(1, "size")),
    (stage('stage = "scan"'), missing(1, "find")),
    (stage('stage = "scan", find = "a", size = 64'), unknown(1, "size")),
    (stage('stage = "nat"'), missing(1, "nat")),
    (one(group='{ name = "g", stages = [{ stage = "nat" }] }'), missing(1, "nat")),
    (inner('{ name = "h", stages = [{ stage = "nat" }] }'), missing(1, "nat")),
    # 3, at each kind of table; all keys of a table before any value
    ("zebra = 1\n" + one(), unknown(0, "zebra")),
    ("zebra = 1\nversion = 7\n", unknown(0, "zebra")),
    (one(more="zebra = 1\n", capture=""), unknown(1, "zebra")),
    (one(more="yak = 1\nbison = 1\n"), unknown(1, "bison")),
    (nat(more=", zebra = 1"), unknown(1, "zebra")),
    (one(group='{ name = "g", zebra = 1 }'), unknown(1, "zebra")),
    (inner('{ name = "h", zebra = 1 }'), unknown(1, "zebra")),
    (inner('{ name = "h", group = [{ name = "i" }] }'), unknown(1, "group")),
    (one(group='{ name = "g", group = [{ name = "h" }] }'), unknown(1, "group")),
    (stage('stage = "ttl", value = 1'), unknown(1, "value")),
    (rule('{ verdict = "deny", zebra = 1 }'), unknown(1, "zebra")),
    (routes('{ to = "0.0.0.0/0", via = %s, zebra = 1 }' % MAC), unknown(1, "zebra")),
    (balance('{ name = "one", mac = %s, zebra = 1 }' % MAC), unknown(1, "zebra")),
    (balance(backend("one"), "{ from = 5, zebra = 1, backend = [%s] }" % backend("one")), unknown(1, "zebra")),
    (match('proto = "tcp", zebra = 1'), unknown(1, "zebra")),
    # 4
    ("version = 0\n", beyond(0, "version")),
    ("version = 3\n", beyond(0, "version")),
    ('version = "1"\n', beyond(0, "version")),
    ("version = 1\ntenant = 1\n", beyond(0, "tenant")),
    ("version = 1\ntenant = []\n", beyond(0, "tenant")),
    ("version = 1\ntenant = [1]\n", beyond(0, "tenant")),
    (one(name="name = 1"), beyond(1, "name")),
    (one(capture='capture = ""'), beyond(1, "capture")),
    (one(capture='capture = "%s"' % ("x" * 256)), beyond(1, "capture")),
    (one(more="buffers = 0\n"), beyond(1, "buffers")),
    (one(more="buffers = 1025\n"), beyond(1, "buffers")),
    (one(more="bytes = 63\n"), beyond(1, "bytes")),
    (one(more="bytes = 65601\n"), beyond(1, "bytes")),
    (one(more='dry = "never"\n'), beyond(1, "dry")),
    (one(more='unparsed = "keep"\n'), beyond(1, "unparsed")),
    (one(more="nat = 1\n"), beyond(1, "nat")),
    (nat(inside='"10.0.0.1/8"'), beyond(1, "inside")),
    (nat(outside='"203.0.113.256"'), beyond(1, "outside")),
    (nat(base="0"), beyond(1, "base")),
    (nat(base="65536"), beyond(1, "base")),
    (nat(ports="0"), beyond(1, "ports")),
    (nat(base="65535", ports="2"), beyond(1, "ports")),
    (one(stages=times(33, '{ stage = "ttl" }')), beyond(1, "stages")),
    (one(stages="1"), beyond(1, "stages")),
    (stage('stage = "zebra"'), beyond(1, "stage")),
    (stage("stage = 1"), beyond(1, "stage")),
    (stage('stage = "set_tos", value = 256'), beyond(1, "value")),
    (stage('stage = "set_tos", value = -1'), beyond(1, "value")),
    (stage('stage = "only", match = 1'), beyond(1, "match")),
    (match('proto = "gre"'), beyond(1, "proto")),
    (match('src = "10.0.0.1/8"'), beyond(1, "src")),
    (match('dst = "10.0.0.0/33"'), beyond(1, "dst")),
    (match("sport = 65536"), beyond(1, "sport")),
    (match("dport = -1"), beyond(1, "dport")),
    (match('port = "80"'), beyond(1, "port")),
    (stage('stage = "firewall", default = "maybe"'), beyond(1, "default")),
    (stage('stage = "firewall", default = "deny", established = 1'), beyond(1, "established")),
    (rule(times(257, '{ verdict = "deny" }')), beyond(1, "rule")),
    (rule('{ verdict = "maybe" }'), beyond(1, "verdict")),
    (stage('stage = "route", mac = "2:0:0:0:0:1", route = [%s]' % row("0.0.0.0/0")), beyond(1, "mac")),
    (routes(), beyond(1, "route")),
    (routes(row("10.0.0.0/33")), beyond(1, "to")),
    (routes(row("0.0.0.0/0", '"02-00-00-00-00-01"')), beyond(1, "via")),
    (routes(*['{ to = "10.%d.%d.0/24", via = %s }' % (k // 256, k % 256, MAC) for k in range(4097)]), beyond(1, "route")),
    (balance(""), beyond(1, "backend")),
    (balance(", ".join(backend("b%d" % k) for k in range(65))), beyond(1, "backend")),
    (balance(backend("one", '"02:00:00:00:00"')), beyond(1, "mac")),
    (balance(backend("one"), ", ".join("{ from = %d, backend = [%s] }" % (k + 1, backend("one")) for k in range(16))), beyond(1, "epoch")),
    (balance(backend("one"), "{ from = 0, backend = [%s] }" % backend("one")), beyond(1, "from")),
    (balance(backend("one"), ", ".join(2 * ["{ from = 5, backend = [%s] }" % backend("one")])), beyond(1, "from")),
    (stage('stage = "window", size = 63'), beyond(1, "size")),
    (stage('stage = "window", size = 1461'), beyond(1, "size")),
    (stage('stage = "window", size = 64, reach = 1459'), beyond(1, "reach")),
    (stage('stage = "window", size = 64, reach = 1048577'), beyond(1, "reach")),
    (stage('stage = "scan", find = ""'), beyond(1, "find")),
    (stage('stage = "scan", find = "%s"' % ("x" * 65)), beyond(1, "find")),
    (stage('stage = "scan", find = "%s"' % ("\u00e9" * 33)), beyond(1, "find")),
    (stage('stage = "scan", find = 1'), beyond(1, "find")),
    (stage('stage = "scan", find = "a", reach = 1459'), beyond(1, "reach")),
    (stage('stage = "scan", find = "a", reach = 1048577'), beyond(1, "reach")),
    (one(group=""), beyond(1, "group")),
    (one(group="1"), beyond(1, "group")),
    (one(group=times(17, '{ name = "g%d" }')), beyond(1, "group")),
    (one(group='{ name = "g", into = 1 }'), beyond(1, "into")),
    (inner(""), beyond(1, "group")),
    (inner(times(5, '{ name = "h%d" }')), beyond(1, "group")),
    (inner('{ name = "h" }', more=', into = "x"'), beyond(1, "group")),
    # 5
    (one(name='name = "A"'), name(1)),
    (one(name='name = ""'), name(1)),
    (one(name='name = "%s"' % ("a" * 33)), name(1)),
    (file(named("a"), named("a")), name(2)),
    (one(group='{ name = "G" }'), name(1)),
    (one(group='{ name = "g", into = "G" }'), name(1)),
    (one(group='{ name = "g" }, { name = "g" }'), name(1)),
    (inner('{ name = "H" }'), name(1)),
    (inner('{ name = "h", into = "H" }'), name(1)),
    (inner('{ name = "h" }, { name = "h" }'), name(1)),
    (balance(backend("One")), name(1)),
    (balance("%s, %s" % (backend("one"), backend("one"))), name(1)),
    (balance(backend("one"), "{ from = 5, backend = [%s, %s] }" % (backend("two"), backend("two"))), name(1)),
    # 6
    (one(stages="%s, %s" % (WINDOW, WINDOW)), windows(1)),
    (one(stages=WINDOW, group='{ name = "g", stages = [%s] }' % WINDOW), windows(1)),
    (one(group='{ name = "g" }, { name = "h", stages = [%s, %s] }' % (WINDOW, WINDOW)), windows(1)),
    (inner('{ name = "h" }, { name = "i", stages = [%s] }' % WINDOW, more=", stages = [%s]" % WINDOW), windows(1)),
    (one(version=2, stages=WINDOW, group='{ name = "g", group = [{ name = "h", stages = [%s] }] }' % WINDOW), windows(1)),
    (file(named("a"), tenant(name='name = "b"', capture='capture = "b.pcap"', stages="%s, %s" % (WINDOW, WINDOW))), windows(2)),
    (one(stages='{ stage = "nat" }, %s, %s' % (WINDOW, WINDOW)), missing(1, "nat")),
    # 7: behind the last row, each row first for its bits
    (routes(row("10.0.0.1/8")), "7 Route place=1 HostBits row=0"),
    (routes(row("0.0.0.0/0"), row("10.0.0.0/8"), row("10.1.0.1/16")), "7 Route place=1 HostBits row=2"),
    (routes(row("10.0.0.0/8"), row("10.0.0.0/8")), "7 Route place=1 SamePrefix first=0 second=1"),
    (routes(row("0.0.0.0/0"), row("10.0.0.0/8"), row("10.1.0.0/16"), row("10.0.0.0/8")), "7 Route place=1 SamePrefix first=1 second=3"),
    (routes(row("10.0.0.0/8"), row("10.0.0.0/8"), row("10.0.0.1/8")), "7 Route place=1 SamePrefix first=0 second=1"),
    (routes(row("10.0.0.1/8"), row("10.0.0.0/33")), beyond(1, "to")),
    # 8
    (file(*[named("t%d" % k) for k in range(17)]), "8 TooManyTenants count=17"),
    ("version = 1\ntenant = [%s]\n" % times(20, "{ }"), "8 TooManyTenants count=20"),
    # 9
    (one(capture='capture = "out/a.refused"'), "9 Collides out/a.refused"),
    (file(named("a"), tenant(name='name = "b"', capture='capture = "out/a.all.pcap"')), "9 Collides out/a.all.pcap"),
    (file(tenant(capture='capture = "out/b.all.pcap"'), named("b")), "9 Collides out/b.all.pcap"),
    # 10
    (one() + "\n" * (1048577 - len(one())), "10 TooLong"),
]

ACCEPTED = [
    one() + "\n" * (1048576 - len(one())),
    one(more="buffers = 1\nbytes = 64\n"),
    one(more='buffers = 1024\nbytes = 65600\ndry = "drop"\nunparsed = "drop"\n'),
    one(capture='capture = "%s"' % ("x" * 255)),
    one(name='name = "%s"' % ("a" * 32)),
    file(*[named("t%d" % k) for k in range(16)]),
    one(group=times(16, '{ name = "g%d" }')),
    one(version=2, group='{ name = "g", group = [%s] }' % times(4, '{ name = "h%d" }')),
    one(version=2, group='{ name = "g", group = [{ name = "h" }] }, { name = "k", group = [{ name = "h" }] }'),
    one(group='{ name = "g", into = "x" }, { name = "h", into = "x" }, { name = "x" }'),
    one(group='{ name = "g", stages = [%s] }, { name = "h", stages = [%s] }' % (WINDOW, WINDOW)),
    one(stages=times(32, '{ stage = "ttl" }')),
    rule(times(256, '{ verdict = "deny" }')),
    routes(*['{ to = "10.%d.%d.0/24", via = %s }' % (k // 256, k % 256, MAC) for k in range(4096)]),
    balance(", ".join(backend("b%d" % k) for k in range(64)), ", ".join("{ from = %d, backend = [%s] }" % (k + 1, backend("one")) for k in range(15))),
    nat(base="1", ports="65535"),
    nat(base="65535", ports="1"),
    stage('stage = "window", size = 64, reach = 1460'),
    stage('stage = "window", size = 1460, reach = 1048576'),
    stage('stage = "scan", find = "%s", reach = 1460' % ("x" * 64)),
    stage('stage = "scan", find = "%s", reach = 1048576' % ("\u00e9" * 32)),
    match(""),
    match('proto = "icmp", src = "0.0.0.0/0", dst = "10.0.0.1/32", sport = 0, dport = 65535, port = 80'),
]


def check(program, text, chains="chains.toml"):
    """What the program answers on the file, in a folder of its own."""
    with tempfile.TemporaryDirectory() as folder:
        path = os.path.join(folder, chains)
        os.makedirs(os.path.dirname(path), exist_ok=True)
        with open(path, "wb") as out:
            out.write(text if isinstance(text, bytes) else text.encode())
        run = subprocess.run([program, "check", chains, "out"], cwd=folder, capture_output=True, text=True, check=False)
        return run.returncode, run.stdout


def main():
    program = os.path.abspath(sys.argv[1] if len(sys.argv) > 1 else "bricks")
    rows = [(text, "chains.toml", (3, "chains: %s\n" % line)) for text, line in REFUSED]
    # the chain file itself has the name of an output
    rows.append((one(), "out/a.all.pcap", (3, "chains: 9 Collides out/a.all.pcap\n")))
    failed = 0
    for text, chains, wanted in rows:
        got = check(program, text, chains)
        if got != wanted:
            failed += 1
            print("wanted %r, got %r for:\n%.600s" % (wanted, got, text))
    for text in ACCEPTED:
        status, _ = got = check(program, text)
        if status != 0:
            failed += 1
            print("wanted acceptance, got %r for:\n%.600s" % (got, text))
    count = len(rows) + len(ACCEPTED)
    print("chain files by the reference: %d as they should be, %d not" % (count - failed, failed))
    return 1 if failed else 0


sys.exit(main())
