"""Rows of `tests/cidr_filter` over the addresses that are anywhere in a line, in a word, or after a mapped prefix. What
is expected is computed here, by regular expressions and Python's `ipaddress`. Each function yields a name, whether the
row is as it should be, and what was got."""

import ipaddress
import itertools
import json
import pathlib
import random
import re

import unaddressed
from cidr_filter_inputs import lacking

LIST = ["10.0.0.0/8", "192.0.2.0/24", "2001:db8::/32", "::ffff:11.0.0.0/105"]


def address(text):
    """The address that a text is, or None."""
    try:
        return ipaddress.ip_address(text)
    except ValueError:
        return None


def begun(run):
    """The address that begins a run, and its text: the run, or the run without a mark at its end, or one with dots before a
    port, which a mark may follow."""
    tries = [run]
    if run[-1:] in (".", ":"):
        tries.append(run[:-1])
    for text in tries:
        if address(text):
            return text, address(text)
    port = re.fullmatch(r"(.*[.].*):[0-9]{1,5}[.:]?", run)
    if port and address(port[1]):
        return port[1], address(port[1])
    return None


def after_word(text):
    """What is after the first colon, if a word is before it: letters, digits, `.` and `_`, one of which no address has."""
    word, _, rest = text.partition(":")
    return rest if re.search("[g-zG-Z_]", word) and "/" not in word else ""


def of_run(run):
    """The address of a run, and its text: the one that begins it, or begins what is after a word."""
    return begun(run) or begun(after_word(run))


def of_line(line):
    """The addresses of a line, in order."""
    runs = re.findall(r"[A-Za-z0-9.:_]+", line)
    return [found for found in map(of_run, runs) if found]


def asked(one):
    """The address as it is, or the IPv4 address that it stands for."""
    return (one.version == 6 and one.ipv4_mapped) or one


def is_in(one, networks, mapped):
    """Whether the address, or with `mapped` the IPv4 address that it stands for, is in one of the networks."""
    return any(form in network for form in ({one, asked(one)} if mapped else {one}) for network in networks)


def wanted(lines, networks, addresses, inverts, mapped):
    """The lines that are selected."""
    selected = []
    for line in lines:
        found = addresses(line)
        inside = any(is_in(one, networks, mapped) for one in found)
        if found and inside != inverts:
            selected.append(line)
    return "".join(f"{line}\n" for line in selected)


def logs(rng):
    """Logs of every usual shape, each with its name and its lines."""
    def one():
        kind = rng.randrange(8)
        if kind == 0:
            return str(ipaddress.ip_address(0x20010DB8 << 96 | rng.getrandbits(rng.choice([8, 40, 96]))))
        if kind == 1:
            return f"::ffff:{ipaddress.ip_address(rng.choice([10, 11]) << 24 | rng.getrandbits(24))}"
        return str(ipaddress.ip_address(rng.choice([10, 11, 192]) << 24 | rng.getrandbits(rng.choice([8, 24]))))

    def time():
        return f"{rng.randrange(24):02d}:{rng.randrange(60):02d}:{rng.randrange(60):02d}"

    def host(name):
        return f"[{name}]:{rng.randrange(65536)}" if ":" in name else f"{name}:{rng.randrange(65536)}"

    def day():
        return f"Nov {rng.randrange(1, 31):2d} {time()}"

    yield "nginx combined", [
        f'{one()} - - [{rng.randrange(1, 31):02d}/Nov/2026:{time()} +0000] "GET /a/{rng.getrandbits(32):x} HTTP/1.1" 200 {rng.randrange(9999)}'
        f' "http://{host(one())}/" "Mozilla/5.0 (X11; rv:109.0) Gecko/20100101 Firefox/115.0"' for _ in range(400)
    ]
    yield "sshd through syslog", [
        rng.choice([
            f"{day()} host sshd[{rng.randrange(99999)}]: Failed password for invalid user admin from {one()} port {rng.randrange(65536)} ssh2",
            f"{day()} host sshd[{rng.randrange(99999)}]: Connection closed by {one()} port {rng.randrange(65536)} [preauth]",
            f"{day()} host sshd[{rng.randrange(99999)}]: Received disconnect from {one()}: 11: Bye",
            f"{day()} host sshd[{rng.randrange(99999)}]: Server listening on 0.0.0.0 port 22.",
        ]) for _ in range(400)
    ]
    yield "iptables", [
        f"{day()} host kernel: [{rng.randrange(9**6)}.{rng.randrange(9**6)}] DROP IN=eth0 OUT= MAC=00:1b:44:11:3a:b7:52:54:00:12:34:56:08:00"
        f" SRC={one()} DST={one()} LEN=40 TTL=244 ID={rng.randrange(65536)} PROTO=TCP SPT={rng.randrange(65536)}" for _ in range(400)
    ]
    yield "JSON lines", [
        json.dumps({"time": f"2026-11-01T{time()}.123Z", "client": rng.choice([one(), host(one()), None]), "hash": f"{rng.getrandbits(160):040x}",
                    "version": "v10.1.2.3", "peers": [one() for _ in range(rng.randrange(3))]}) for _ in range(400)
    ]
    yield "CSV", [f"{rng.randrange(999)},{one()},{one()};{one()},\"{host(one())}\",1.2.3.4.5,{one()}." for _ in range(400)]


def shapes(program, folder):
    """Logs of usual shapes, of which the addresses are anywhere."""
    networks = [ipaddress.ip_network(text) for text in LIST]
    lists = [word for text in LIST for word in ("-e", text)]
    anywhere = lambda line: [found for _, found in of_line(line)]
    for name, lines in logs(random.Random(3)):
        log = "".join(f"{line}\n" for line in lines).encode()
        for words in (["-a"], ["-a", "-v"], ["-a", "--mapped"], ["-va", "--mapped"]):
            inverts, mapped = any("v" in word[:3] for word in words if word[:2] != "--"), "--mapped" in words
            output = wanted(lines, networks, anywhere, inverts, mapped).encode()
            got = unaddressed.run([program, *words, *lists], input=log, capture_output=True)
            got = (got.stdout, got.stderr, got.returncode)
            yield f"{name}, {words}", got == (output, b"", 0 if output else 1), got


def texts(program, folder):
    """With -o the addresses that are in a network, as they are spelled."""
    networks = [ipaddress.ip_network(text) for text in LIST]
    lists = [word for text in LIST for word in ("-e", text)]
    for name, lines in logs(random.Random(6)):
        log = "".join(f"{line}\n" for line in lines).encode()
        for words in (["-ao"], ["-oa", "--mapped"]):
            found = [text for line in lines for text, one in of_line(line) if is_in(one, networks, "--mapped" in words)]
            output = "".join(f"{text}\n" for text in found).encode()
            got = unaddressed.run([program, *words, *lists], input=log, capture_output=True)
            got = (got.stdout, got.stderr, got.returncode)
            yield f"{name}, {words}", got == (output, b"", 0 if output else 1), got


def value_after(line, text):
    """What is after the text, and after blanks, quotation marks and `[`, if an address is there, else nothing. The text
    does not count inside a name."""
    for place in re.finditer(f"(?={re.escape(text)})", line):
        if not re.fullmatch("[A-Za-z0-9._-]{2}", line[max(place.start() - 1, 0) : place.start() + 1]):
            rest, before = line[place.start() + len(text) :], ""
            while rest and (rest[0] in " \t[" or rest[0] in "\"'" and rest[0] != before):
                rest, before = rest[1:], rest[0]
            return rest if any(map(of_run, re.findall(r"^[A-Za-z0-9.:_]+", rest))) else ""
    return ""


def after(program, folder):
    """With --after the first address after a text."""
    networks = [ipaddress.ip_network(text) for text in LIST]
    lists = [word for text in LIST for word in ("-e", text)]
    for name, lines in logs(random.Random(7)):
        log = "".join(f"{line}\n" for line in lines).encode()
        for text in ("DST=", "from ", '"', ",", " ", "1", "peers"):
            first = lambda line: [found for _, found in of_line(value_after(line, text))][:1]
            output = wanted(lines, networks, first, False, False).encode()
            got = unaddressed.run([program, "--after", text, *lists], input=log, capture_output=True)
            got = (got.stdout, got.stderr, got.returncode)
            error = b"" if any(first(line) for line in lines) else lacking(f"after {text}")
            yield f"{name}, after {text}", got == (output, error, 0 if output else 1), got


def words(program, folder):
    """Words between runs of blanks, as `split` has them."""
    networks = [ipaddress.ip_network(text) for text in LIST]
    lists = [word for text in LIST for word in ("-e", text)]
    for name, lines in logs(random.Random(4)):
        lines = [line.replace(" ", "\t ") if n % 3 == 0 else line for n, line in enumerate(lines)]
        log = "".join(f"{line}\n" for line in lines).encode()
        for number in (1, 2, 3, 6, 11, 13, 14):
            def at(line):
                parts = re.split("[ \t]+", line.strip(" \t"))
                found = address(parts[number - 1]) if number <= len(parts) else None
                return [found] if found else []
            output = wanted(lines, networks, at, False, False).encode()
            got = unaddressed.run([program, "-w", f"-k{number}", *lists], input=log, capture_output=True)
            got = (got.stdout, got.stderr, got.returncode)
            error = b"" if any(at(line) for line in lines) else lacking(f"in word {number}")
            yield f"{name}, word {number}", got == (output, error, 0 if output else 1), got


def nth(found, which):
    """Of these addresses the one that --nth says, if it is there."""
    place = {"first": 0, "last": len(found) - 1}.get(which, int(which) - 1 if which.isdigit() else 0)
    return found[place : place + 1] if place >= 0 else []


def field(line, number, separator):
    """The field of this number, if the line has it."""
    parts = line.split(separator)
    return parts[number - 1] if number <= len(parts) else ""


def parts(program, folder):
    """Addresses anywhere in a field or after a text, and which of them counts."""
    networks = [ipaddress.ip_network(text) for text in LIST]
    lists = [word for text in LIST for word in ("-e", text)]
    places = [(["-k2", "-d", '"'], lambda line: field(line, 2, '"'), "in field 2"), (["-d,"], lambda line: field(line, 1, ","), "in field 1")]
    places += [(["-wk10"], lambda line: (line.split() + [""] * 10)[9], "in word 10"), ([], lambda line: line, "anywhere in it")]
    places += [(["--after", "DST="], lambda line: value_after(line, "DST="), "after DST=")]
    for name, lines in logs(random.Random(8)):
        log = "".join(f"{line}\n" for line in lines).encode()
        for (place, part, where), which in itertools.product(places, ("", "first", "last", "2", "3")):
            if place[:1] == ["--after"] and not which:
                continue
            found = lambda line: [one for _, one in of_line(part(line))]
            counts = lambda line: nth(found(line), which) if which else found(line)
            output = wanted(lines, networks, counts, False, False).encode()
            got = unaddressed.run([program, *place, *(["--nth", which] if which else ["-a"]), *lists], input=log, capture_output=True)
            got = (got.stdout, got.stderr, got.returncode)
            error = b"" if any(counts(line) for line in lines) else lacking(where, which)
            yield f"{name}, {place}, {which or 'all'}", got == (output, error, 0 if output else 1), got


def random_runs(program, folder):
    """Lines of pieces of addresses, and bytes next to them: those that have an address."""
    rng = random.Random(5)
    pieces = ["10.1.1.1", "1.2.3", "2001:db8::1", "::", "::ffff:1.2.3.4", "1:2:3:4:5:6:7:8", "255.255.255.255", "256.1.1.1", "01.2.3.4"]
    pieces += [*".:_:. /[]\"=,-@x0a9Gz", ":80", ":65535", ":123456", "outside:", "ip6:", "dad:", "12:34:56", "fe80::1%eth0", "ab", "\t", "\xe9"]
    lines = ["".join(rng.choice(pieces) for _ in range(rng.randrange(1, 7))) for _ in range(60000)]
    output = "".join(f"{line}\n" for line in lines if of_line(line)).encode()
    log = "".join(f"{line}\n" for line in lines).encode()
    got = unaddressed.run([program, "-a", "-e", "0.0.0.0/0", "-e", "::/0"], input=log, capture_output=True)
    yield "lines of pieces", (got.stdout, got.stderr, got.returncode) == (output, b"", 0), (got.stderr, got.returncode, len(got.stdout), len(output))
    none = "".join(f"{line}\n" for line in lines if not of_line(line)).encode()
    got = unaddressed.run([program, "-a", "-v", "--bad", "keep", "-e", "0.0.0.0/0", "-e", "::/0"], input=log, capture_output=True)
    yield "lines without an address", got.stdout == none, (got.stderr, got.returncode, len(got.stdout), len(none))


def network(text):
    """The network that a text is, host bits cleared, or None."""
    try:
        return ipaddress.ip_network(text, strict=False)
    except ValueError:
        return None


def of_stretch(stretch):
    """The network of a stretch of letters, digits, `.`, `:`, `_` and `/`, or its addresses, as networks, with their texts."""
    if stretch.find("/") > 0:
        for part in (stretch, after_word(stretch)):
            for text in [part] + ([part[:-1]] if part[-1:] in (".", ":") else []):
                if network(text):
                    return [(text, network(text))]
    return [(text, network(found)) for text, found in of_line(stretch)]


def spelled_networks(line):
    """The networks and addresses of a line, in order, with their texts."""
    return [found for stretch in re.findall(r"[A-Za-z0-9.:_/]+", line) for found in of_stretch(stretch)]


def networks_of_line(line):
    """The networks and addresses of a line, in order."""
    return [one for _, one in spelled_networks(line)]


def unmapped(one):
    """The network as it is, or the one of the IPv4 addresses that its own stand for."""
    if one.version == 6 and one.prefixlen >= 96 and one.network_address.ipv4_mapped:
        return ipaddress.ip_network((one.network_address.ipv4_mapped, one.prefixlen - 96))
    return one


def has_all(blocks, one):
    """Whether each address of the network is in one of these, which are collapsed."""
    return any(one.version == block.version and one.subnet_of(block) for block in blocks)


def network_logs(rng):
    """Lines with networks in and around those of LISTED, each with what comes before and after it in logs."""
    def one():
        kind = rng.randrange(6)
        if kind == 0:
            return f"{ipaddress.ip_address(0x20010DB8 << 96 | rng.getrandbits(96))}/{rng.choice([16, 31, 32, 33, 64, 128, 129])}"
        if kind == 1:
            return f"::ffff:{ipaddress.ip_address(rng.choice([10, 11]) << 24 | rng.getrandbits(24))}/{rng.choice([94, 95, 96, 104, 105, 112, 120, 128])}"
        if kind == 2:
            return f"10.{rng.randrange(4)}.0.0/255.{rng.choice([255, 254, 128, 0])}.0.0"
        text = str(ipaddress.ip_address(rng.choice([10 << 24, 192 << 24 | 2 << 8, 11 << 24]) | rng.getrandbits(rng.choice([2, 8, 16]))))
        return text if kind == 3 else f"{text}/{rng.choice([7, 8, 9, 16, 22, 23, 24, 25, 30, 32, 33, 99, 256])}"
    shapes = ["{} to {}", "SRC={} DST={} x", "[{}] ({})", "{}, {}.", "route {}: via {}", "http://{}/a {}", "{}/x {}/", "{}/24/8 {}:80", "\"{}\";{}", "{}-{}", "a", "x/y {}", "ip4:{} ip6:{}", "dad:{} x/y:{} z:{}"]
    return [rng.choice(shapes).format(one(), one(), one()) for _ in range(3000)]


# Two halves of a network and an end of it that overlaps neither, a network of IPv6, and one of IPv4-mapped addresses
LISTED = ["10.0.0.0/9", "10.128.0.0/9", "192.0.2.0/25", "192.0.2.128/26", "2001:db8::/32", "::ffff:11.0.0.0/104"]


def networks(program, folder):
    """With --networks the networks of which each address is in the list, anywhere in a line or as its first field."""
    blocks = [block for version in (4, 6) for block in ipaddress.collapse_addresses(filter(lambda n: n.version == version, map(ipaddress.ip_network, LISTED)))]
    lists = [word for text in LISTED for word in ("-e", text)]
    lines = network_logs(random.Random(11))
    log = "".join(f"{line}\n" for line in lines).encode()
    first = lambda line: [found for found in [network(line.split(" ")[0])] if found]
    anywhere = networks_of_line
    for words, found in [
        (["-a"], anywhere), ([], first), (["--nth", "first"], lambda line: nth(anywhere(line), "first")), (["--nth", "last"], lambda line: nth(anywhere(line), "last")),
        (["-a", "--nth", "2"], lambda line: nth(anywhere(line), "2")), (["-w", "-k3"], lambda line: [found for found in [network((line.split() + [""] * 3)[2])] if found]),
        (["-a", "-d,", "-k2"], lambda line: anywhere(field(line, 2, ","))), (["--after", "DST="], lambda line: anywhere(value_after(line, "DST="))[:1]),
    ]:
        for more in ([], ["-v"], ["--mapped"]):
            forms = (lambda one: {one, unmapped(one)}) if more == ["--mapped"] else lambda one: {one}
            chosen = [line for line in lines if found(line) and any(has_all(blocks, form) for one in found(line) for form in forms(one)) != (more == ["-v"])]
            output = "".join(f"{line}\n" for line in chosen).encode()
            got = unaddressed.run([program, "--networks", *words, *more, *lists], input=log, capture_output=True)
            got = (got.stdout, got.stderr, got.returncode)
            yield f"networks, {words} {more}", bool(output) and got == (output, b"", 0), got
    texts = [text for line in lines for text, one in spelled_networks(line) if has_all(blocks, one)]
    output = "".join(f"{text}\n" for text in texts).encode()
    got = unaddressed.run([program, "--networks", "-ao", *lists], input=log, capture_output=True)
    yield "networks, -ao", bool(output) and (got.stdout, got.stderr, got.returncode) == (output, b"", 0), got
    # The time grows as the line does: if each address of the first were looked for from its beginning, this took minutes.
    for piece in ("11.1.1.1/", "/11.1.1.1x", "11.1.1.1/33,", "/"):
        log = 4 * (piece * (1048000 // len(piece)) + " 10.0.0.0/8\n").encode()
        got = unaddressed.run([program, "--networks", "-ac", *lists], input=log, capture_output=True)
        yield f"networks, long lines of {piece}", (got.stdout, got.stderr, got.returncode) == (b"4\n", b"", 0), got


def formats(program, folder):
    """The addresses of lines in the shapes of many programs' logs, as the table of formats has them."""
    table = (pathlib.Path(__file__).parent.parent / "examples/cidr_filter/log_formats.tsv").read_text()
    rows = [row.split("\t") for row in table.splitlines()[1:]]
    yield "the table of formats", len(rows) >= 35, len(rows)
    for name, line, texts in rows:
        output = "".join(f"{text}\n" for text in texts.split())
        got = unaddressed.run([program, "-ao", "-e", "0.0.0.0/0", "-e", "::/0"], input=f"{line}\n".encode(), capture_output=True)
        yield f"a line of {name}", got.stdout.decode() == output, got


def families(program, folder):
    """With -4 or -6 only the addresses of that family, as if there were no others."""
    networks = [ipaddress.ip_network(text) for text in LIST]
    lists = [word for text in LIST for word in ("-e", text)]
    for name, lines in logs(random.Random(12)):
        log = "".join(f"{line}\n" for line in lines).encode()
        for version, words in itertools.product((4, 6), (["-a"], ["-av"], ["-a", "--mapped"], ["-v"], ["-v", "--mapped"])):
            mapped = "--mapped" in words
            places = (lambda line: [one for _, one in of_line(line)]) if "a" in words[0] else (lambda line: [one for one in [address(line.split(" ")[0])] if one])
            found = lambda line: [one for one in places(line) if (asked(one) if mapped and version == 4 else one).version == version]
            output = wanted(lines, networks, found, "v" in words[0], mapped).encode()
            got = unaddressed.run([program, f"-{version}", *words, *lists], input=log, capture_output=True)
            got = (got.stdout, got.stderr, got.returncode)
            error = b"" if any(found(line) for line in lines) else lacking("anywhere in it" if "a" in words[0] else "in field 1")
            yield f"{name}, -{version} {words}", got == (output, error, 0 if output else 1), got
        texts = [text for line in lines for text, one in of_line(line) if one.version == 6 and any(one in network for network in networks)]
        output = "".join(f"{text}\n" for text in texts).encode()
        got = unaddressed.run([program, "-ao6", *lists], input=log, capture_output=True)
        yield f"{name}, -ao6", (got.stdout, got.stderr) == (output, b""), got
