"""Rows of `tests/cidr_merge` for documents of JSON, compared with Python's `json` and `ipaddress`: a name, what a run gave and
what is wanted, which is the status, standard output and standard error."""

import gzip
import ipaddress
import json
import os
import random
import subprocess

import limits

LONGEST = 1 << 30

# Three documents in the shapes that providers publish.
AWS = {
    "syncToken": "1712345678",
    "createDate": "2024-04-05-19-34-38",
    "prefixes": [
        {"ip_prefix": "3.5.140.0/22", "region": "ap-northeast-2", "service": "AMAZON", "network_border_group": "ap-northeast-2"},
        {"ip_prefix": "3.5.144.0/23", "region": "us-east-1", "service": "S3", "network_border_group": "us-east-1"},
        {"ip_prefix": "3.5.146.0/23", "region": "us-east-1", "service": "S3", "network_border_group": "us-east-1"},
    ],
    "ipv6_prefixes": [{"ipv6_prefix": "2600:1f00::/24", "region": "GLOBAL", "service": "EC2", "network_border_group": "GLOBAL"}],
}
GOOGLE = {
    "syncToken": "1712345678123",
    "creationTime": "2024-04-05T19:34:38.123",
    "prefixes": [{"ipv4Prefix": "8.8.4.0/24"}, {"ipv4Prefix": "8.8.8.0/24"}, {"ipv6Prefix": "2001:4860::/32"}],
}
AZURE = {
    "changeNumber": 300,
    "cloud": "Public",
    "values": [
        {
            "name": "ActionGroup.AustraliaCentral",
            "id": "ActionGroup.AustraliaCentral",
            "properties": {
                "changeNumber": 9,
                "region": "australiacentral",
                "regionId": 58,
                "platform": "Azure",
                "systemService": "ActionGroup",
                "addressPrefixes": ["4.145.74.52/30", "20.36.103.16/28", "2603:1010:304::180/121"],
                "networkFeatures": ["API", "NSG", "UDR", "FW"],
            },
        }
    ],
}

GITHUB = {
    "verifiable_password_authentication": False,
    "ssh_key_fingerprints": {"SHA256_ED25519": "+DiY3wvvV6TuJJhbpZisF/zLDA0zPMSvHdkr4UvCOqU"},
    "ssh_keys": ["ssh-ed25519 AAAAC3NzaC1lZDI1NTE5AAAAIOMqqnkVzrm0SdG6UOoqKLsabgH5C9okWi0dh2l9GKJl"],
    "hooks": ["192.30.252.0/22", "2606:50c0::/32"],
    "web": ["192.30.252.0/22", "20.201.28.151/32"],
    "domains": {"actions": ["*.actions.githubusercontent.com"], "hooks": None},
}

# Strings that name no entry, though some have one in them.
OTHERS = [
    "", " ", "us-east-1", "AMAZON", "2024-04-05-19-34-38", "10.0.0.0/33", "10.0.0", "10.0.0.0/8 ", "10.0.0.0/8 # office",
    "10.0.0.0/8\n", "10.0.0.9-10.0.0.1", "::1-10.0.0.1", "10.0.0.0/8/8", "x", "-", "\u00e9", "10.0.0.0/8;", "[10.0.0.1]",
    "10.0.0.1\n", "10.0.0.1\r\n", "\n10.0.0.1", "10.0.0.1\u00a0", "2001:db8::1\u200b", "\ufeff10.0.0.0/8", "10.0.0.1,10.0.0.2",
    "10.0.0.0 255.0.0.0", "10.0.0.0 /8", "2001:db8:0:0:0:0:0:0/129", "10.0.0.1 is down", "12:34:56", "2026-12-01 10:00:00",
    "00:1b:44:11:3a:b7", "1.2.3", "1:2:3:4:5:6:7/64",
]  # fmt: skip

GOOGLE_REPORTED = b"google:1: refused address: 2024-04-05T19:34:38.123\ngoogle:5: refused address: 1712345678123\n"

# Those that look like one, and so are refused without --strict too.
ALIKE = {
    "10.0.0.0/33", "10.0.0.0/8 ", "10.0.0.0/8 # office", "10.0.0.0/8\n", "10.0.0.9-10.0.0.1", "::1-10.0.0.1", "10.0.0.0/8/8",
    "10.0.0.0/8;", "10.0.0.1\n", "10.0.0.1\r\n", "\n10.0.0.1", "10.0.0.1\u00a0", "2001:db8::1\u200b", "\ufeff10.0.0.0/8",
    "10.0.0.1,10.0.0.2", "10.0.0.0 255.0.0.0", "10.0.0.0 /8", "2001:db8:0:0:0:0:0:0/129",
}  # fmt: skip

# Strings that look like an entry though something is around it, or another one is after it, and how each is refused.
LIKE_ENTRIES = [
    ("203.0.113.7\n", "address: 203.0.113.7\\x0a"), ("203.0.113.7\r", "address: 203.0.113.7\\x0d"),
    ("203.0.113.7\r\n", "address: 203.0.113.7\\x0d\\x0a"), ("\n203.0.113.7", "address: \\x0a203.0.113.7"),
    ("203.0.113.7\u00a0", "address: 203.0.113.7\u00a0"), ("203.0.113.7\u200b", "address: 203.0.113.7\\xe2\\x80\\x8b"),
    ("2001:db8::1\n", "address: 2001:db8::1\\x0a"), ("\ufeff203.0.113.0/24", "byte order mark: \\xef\\xbb\\xbf203.0.113.0/24"),
    ("203.0.113.7,198.51.100.9", "address: 203.0.113.7,198.51.100.9"), (",203.0.113.7;", "address: ,203.0.113.7;"),
    ("203.0.113.0 255.255.255.0", "address: 203.0.113.0 255.255.255.0 (write 203.0.113.0/24)"),
    ("203.0.113.0 /24", "address: 203.0.113.0 /24"), ("203.0.113.1\u2013203.0.113.9", "address: 203.0.113.1\u2013203.0.113.9"),
    ("2001:db8:0:0:0:0:0:0/129", "prefix: 2001:db8:0:0:0:0:0:0/129"),
    ("0:0:0:0:0:ffff:1.2.3.4/129", "prefix: 0:0:0:0:0:ffff:1.2.3.4/129"),
]  # fmt: skip

NOT_LIKE_ENTRIES = [
    "12:34:56", "12:34:56,789", "2026-12-01 10:00:00", "2026-12-01T10:00:00Z", "00:1b:44:11:3a:b7", "1.2.3", "1.2.3, 1.2.3.4",
    "us-east-1", "arn:aws:iam::1:role/x", "https://203.0.113.7/", "203.0.113.7 is down", "at 203.0.113.7", "1:2:3:4:5:6:7/64",
    "00:11:22:33:44:55:66:77:88:99:aa:bb:cc:dd:ee:ff", "\ufeff", ",",
]  # fmt: skip

# Names of fields, which messages print but for a line feed.
NAMES = [text for text in OTHERS + ["10.0.0.0/8", "::/0"] if text.replace("\n", "").isprintable()]

NOT_JSON = [
    b"", b"\n\n", b"{", b"[\n1,\n2", b"10.0.0.0/8\n10.1.0.0/16\n", b'["10.0.0.0/8",\n"10.1.0.0/16"\n', b'["10.0.0.0/8"]\n\n]',
    b'{\n "a": "10.0.0.0/8",\n "b" "c"\n}\n', b"['10.0.0.0/8']", b'["10.0.0.0/8"\n\n"10.1.0.0/16"]', b'{"a":\n\nnul}', b"# none\n",
]  # fmt: skip


def run(program, words, folder, data=b""):
    pipes = {"stdout": subprocess.PIPE, "stderr": subprocess.PIPE}
    done = limits.run([program, *words], input=data, cwd=folder, **pipes)
    return done.returncode, done.stdout, done.stderr


def strings(value):
    """The strings of a value at any depth, those of an object in the order of its keys, which are none of them."""
    if isinstance(value, str):
        yield value
    elif isinstance(value, list):
        for each in value:
            yield from strings(each)
    elif isinstance(value, dict):
        for key in sorted(value):
            yield from strings(value[key])


def entry(text):
    """The networks of the entry that a string names, or None."""
    try:
        if "-" not in text:
            return [ipaddress.ip_network(text, strict=False)]
        first, last = (ipaddress.ip_address(end.strip(" \t")) for end in text.split("-", 1))
        return list(ipaddress.summarize_address_range(first, last))
    except (ValueError, TypeError):
        return None


def has_host_bits(text):
    """Whether a string names a network with host bits."""
    try:
        return "-" not in text and ipaddress.ip_network(text) is None
    except ValueError:
        return entry(text) is not None


def union(documents):
    """The lines of the shortest list of what the strings of the documents name."""
    nets = [net for document in documents for text in strings(document) for net in entry(text) or []]
    of_family = ([net for net in nets if net.version == version] for version in (4, 6))
    return "".join(f"{net}\n" for family in of_family for net in ipaddress.collapse_addresses(family)).encode()


def named(rng):
    """A string that names an entry."""
    kind, bits = rng.choice([(ipaddress.IPv4Address, 32), (ipaddress.IPv6Address, 128)])
    address = rng.randrange(2**bits)
    if rng.randrange(3):
        return f"{kind(address)}/{rng.randrange(8, bits + 1)}" if rng.randrange(4) else str(kind(address))
    last = min(address + rng.randrange(1000), 2**bits - 1)
    return f"{kind(address)}{rng.choice(['-', ' - ', chr(9) + '-'])}{kind(last)}"


def random_value(rng, depth):
    """A value with some strings of both kinds in it."""
    kind = rng.randrange(7 if depth else 5)
    if kind < 3:
        return named(rng) if rng.randrange(2) else rng.choice(OTHERS)
    if kind < 5:
        return rng.choice([None, True, False, 0, -1, 1.5, 10**30])
    values = [random_value(rng, depth - 1) for _ in range(rng.randrange(6))]
    if kind == 5:
        return values
    return {rng.choice(OTHERS + ["10.0.0.0/8", "::/0"]) + str(rng.randrange(3)): value for value in values}


def write(folder, name, data):
    with open(os.path.join(folder, name), "wb") as file:
        file.write(data)


def documents(program, folder):
    """The documents of providers, random ones, and what is no document."""
    for name, document in [("aws", AWS), ("google", GOOGLE), ("azure", AZURE)]:
        write(folder, name, json.dumps(document, indent=2).encode())
    for words, wanted in [
        ("union --json aws", union([AWS])),
        ("union --json google", union([GOOGLE])),
        ("union --json azure", union([AZURE])),
        ("union --json aws google azure", union([AWS, GOOGLE, AZURE])),
        ("common --json aws google -- google azure", union([GOOGLE])),
        ("minus --json aws google -- google", union([AWS])),
        ("list --json --format plain google", union([GOOGLE])),
        ("split --prefix 16 --json google", union([GOOGLE])),
        ("split google --json --prefix=16", union([GOOGLE])),
        ("union aws --json google azure", union([AWS, GOOGLE, AZURE])),
        ("common aws google -- google azure --json", union([GOOGLE])),
        ("split --prefix 23 --skip-bad --json aws google", b"3.5.140.0/23\n3.5.142.0/23\n3.5.144.0/23\n3.5.146.0/23\n"
         b"8.8.4.0/24\n8.8.8.0/24\n2001:4860::/32\n2600:1f00::/24\n"),
    ]:
        yield words, run(program, words.split(), folder), (0, wanted, b"")
    yield "differ", run(program, ["differ", "--json", "aws", "--", "aws"], folder), (0, b"", b"")

    for text, wanted in [
        (b'"10.0.0.0/8"', b"10.0.0.0/8\n"),
        (b' [ "\\u0031\\u0030.0.0.0\\/8" ]\r\n', b"10.0.0.0/8\n"),
        (b'{"10.0.0.0/8": 1}', b""),
        (b'{"a": "10.0.0.0/8", "a": "11.0.0.0/8"}', b"11.0.0.0/8\n"),
        (b"null", b""),
        (b'["::/0", 10.5, "10.0.0\\n"]', b"::/0\n"),
        (b'["10.0.0.0/' + b"0" * 1014 + b'8"]', b"10.0.0.0/8\n"),
        (b"[" * 127 + b'"10.0.0.0/8"' + b"]" * 127, b"10.0.0.0/8\n"),
    ]:
        yield f"{text[:40]}", run(program, ["union", "--json", "-"], folder, text), (0, wanted, b"")
    reported = b"-:1: not JSON, or more than 127 levels\n"
    for text in (b"[" * 128 + b'"10.0.0.0/8"' + b"]" * 128, b'["\xff"]', b"[1e999]"):
        yield f"{text[:40]}", run(program, ["union", "--json", "-"], folder, text), (2, b"", reported)
    for text, named in [
        (b"\xef\xbb\xbf[]", b"byte order mark"),
        ("\ufeff[]".encode("utf-16-le"), b"UTF-16 text"),
        (gzip.compress(b"[]", mtime=0), b"gzip data"),
        (b"[]\0", b"NUL byte"),
    ]:
        yield f"{named}", run(program, ["union", "--json", "-"], folder, text), (2, b"", b"-: not JSON, but %s\n" % named)
    text = b'["::/0", "10.0.0.0/' + b"0" * 1015 + b'8"]'
    reported = b"-:2: refused length: 10.0.0.0/" + b"0" * 55 + b"..\n"
    yield "a long string", run(program, ["union", "--json", "-"], folder, text), (2, b"", reported)
    yield from refused(program, folder)
    yield from of_fields(program, folder)
    yield from of_length(program, folder)

    for seed in range(150):
        rng = random.Random(seed)
        document = [random_value(rng, 4) for _ in range(rng.randrange(1, 12))]
        indent = rng.choice([None, 1])
        write(folder, "random_value", json.dumps(document, indent=indent, ensure_ascii=bool(seed % 2)).encode())
        texts = list(enumerate(strings(document), 1))
        alike = [place for place, text in texts if text in ALIKE]
        others = [place for place, text in texts if entry(text) is None or has_host_bits(text)]
        for words, refused_places in [("--json", alike), ("--strict --json", others)]:
            status, output, error = run(program, ["union", *words.split(), "random_value"], folder)
            places = [int(line.split(b":")[2]) for line in error.splitlines() if b" more refused lines" not in line]
            wanted = (2, b"", refused_places[:100]) if refused_places else (0, union([document]), [])
            yield f"{words}, seed {seed}", (status, output, places), wanted


def refused(program, folder):
    """Strings that are refused, words that are wrong, and documents that are none, with the lines that Python tells."""
    write(folder, "mixed", b'["10.0.0.0/8", "x", {"b": "1.2.3.4/33", "a": "2.0.0.0-1.0.0.0"}, "10.0.0.0/8/8"]')
    like = b"mixed:3: refused range: 2.0.0.0-1.0.0.0\nmixed:4: refused prefix: 1.2.3.4/33\nmixed:5: refused format: 10.0.0.0/8/8\n"
    reported = b"mixed:2: refused address: x\n" + like
    for words, wanted in [
        ("union --json --strict mixed", (2, b"", reported)),
        ("union --json --strict --skip-bad mixed", (3, b"10.0.0.0/8\n", reported)),
        ("split --prefix 8 --json --strict mixed", (2, b"", reported)),
        ("split --prefix 8 --skip-bad --json --strict mixed", (3, b"10.0.0.0/8\n", reported)),
        ("union --json mixed", (2, b"", like)),
        ("union --json --skip-bad mixed", (3, b"10.0.0.0/8\n", like)),
        ("minus --json --strict google -- mixed", (2, b"", GOOGLE_REPORTED + reported)),
        ("union --json missing", (2, b"", b"missing: cannot open: no such file\n")),
        ("union --json .", (2, b"", b".: cannot open: is a directory\n")),
    ]:
        yield words, run(program, words.split(), folder), wanted
    for text, said in LIKE_ENTRIES:
        written = json.dumps(["10.0.0.1", text]).encode()
        wanted = (2, b"", b"-:2: refused " + said.encode() + b"\n")
        yield f"{text!r}", run(program, ["union", "--json", "-"], folder, written), wanted
    for text in NOT_LIKE_ENTRIES:
        written = json.dumps(["10.0.0.1", text]).encode()
        yield f"{text!r}", run(program, ["union", "--json", "-"], folder, written), (0, b"10.0.0.1/32\n", b"")
    for place, text in enumerate(NOT_JSON):
        write(folder, "none", text)
        line = 0
        try:
            json.loads(text)
        except json.JSONDecodeError as error:
            line = error.lineno
        reported = f"none:{line}: not JSON, or more than 127 levels\n".encode()
        yield f"no document, {place}: {text}", run(program, ["union", "--json", "google", "none"], folder), (2, b"", reported)


# The first byte of a document and what follows it for a megabyte, which takes much memory in a tree of values. Plain Rust
# gets 64 bytes for each byte, and 16 MiB for the program and the bytes themselves; or little, too little for the values.
HEAVY = [
    (b"[", b"0,"), (b"[", b"[],"), (b"[", b'"",'), (b"[", b'[""],'), (b"[", b"[" * 125 + b'""' + b"]" * 125 + b","),
    (b"[", b'"\\n",'), (b"[", b'{"":""},'), (b"[", b'{"a":1},'), (b"{", b'"":0,'), (b"{", b'"":"",'),
]  # fmt: skip
HEAVY_LENGTH = 1 << 20
HEAVY_KIB, LITTLE_KIB = (16 + 64) << 10, 8 << 10


def fields_of(names, value, within=False):
    """The values of members with one of the names, and the elements of arrays that are such values, in their order."""
    if isinstance(value, list):
        for each in value:
            yield from fields_of(names, each, within)
    elif isinstance(value, dict):
        for key in sorted(value):
            yield from fields_of(names, value[key], key in names)
    elif within and value is not None:
        yield value


def has_field(name, value):
    """Whether a member with this name is in a value, at any depth."""
    if isinstance(value, dict):
        return name in value or any(has_field(name, each) for each in value.values())
    return isinstance(value, list) and any(has_field(name, each) for each in value)


def of_fields(program, folder):
    """`--json-field`: documents in the shapes of providers, random ones, and what has no such field; JSON Lines."""
    write(folder, "github", json.dumps(GITHUB, indent=2).encode())
    all_of = {"aws": AWS, "google": GOOGLE, "azure": AZURE, "github": GITHUB}
    for name, names in [
        ("aws", ["ip_prefix"]), ("aws", ["ipv6_prefix", "ip_prefix"]), ("google", ["ipv4Prefix", "ipv6Prefix"]), ("google", ["ipv6Prefix"]),
        ("azure", ["addressPrefixes"]), ("github", ["hooks"]), ("github", ["web", "hooks"]),
    ]:  # fmt: skip
        words = ["union", *(f"--json-field={one}" for one in names), name]
        yield " ".join(words), run(program, words, folder), (0, union([list(fields_of(names, all_of[name]))]), b"")
    no_field = b"%s: no field %s\n"
    for words, data, wanted in [
        ("union --json-field ip_prefixes aws", b"", (2, b"", no_field % (b"aws", b"ip_prefixes"))),
        ("union --json-field ip_prefi aws", b"", (2, b"", no_field % (b"aws", b"ip_prefi"))),
        ("union --json-field IP_PREFIX aws", b"", (2, b"", no_field % (b"aws", b"IP_PREFIX"))),
        ("union --skip-bad --allow-empty --format nft --json-field ip_prefix -", b'{"message":"rate limited"}', (2, b"", no_field % (b"-", b"ip_prefix"))),
        ("union --json-field ip_prefix aws google", b"", (2, b"", no_field % (b"google", b"ip_prefix"))),
        ("minus --json-field ip_prefix aws -- google", b"", (2, b"", no_field % (b"google", b"ip_prefix"))),
        ("union --json-field ip_prefix --json-field ipv6_prefi aws", b"", (2, b"", no_field % (b"aws", b"ipv6_prefi"))),
        ("union --json-field x --json-field ip_prefix --json-field y aws", b"", (2, b"", no_field % (b"aws", b"x"))),
        ("union --json-field ip_prefix --json-field ipv4Prefix aws google", b"", (2, b"", no_field % (b"aws", b"ipv4Prefix"))),
        ("union --skip-bad --json-field hooks --json-field web -", b'{"hooks": ["10.0.0.0/8"]}', (2, b"", no_field % (b"-", b"web"))),
        ("union --json-field a\x1bb -", b'{"a": "::1"}', (2, b"", no_field % (b"-", b"a\\x1bb"))),
        ("union --json-field a --json-field b -", b'{"a": "10.0.0.0/8"}\n{"b": "::/0"}', (0, b"10.0.0.0/8\n::/0\n", b"")),
        ("union --json-field region aws", b"", (2, b"", b"aws:1: refused address: GLOBAL\naws:2: refused address: ap-northeast-2\n"
         b"aws:3: refused address: us-east-1\naws:4: refused address: us-east-1\n")),
        ("union --json-field regionId azure", b"", (2, b"", b"azure:1: refused address: a number\n")),
        ("union --json-field verifiable_password_authentication github", b"", (2, b"", b"github:1: refused address: a boolean\n")),
        ("union --json-field domains github", b"", (0, b"", b"")),
        ("union --json-field hooks --strict -", b'{"hooks": ["10.0.0.5/8"], "web": ["10.0.0.5/8"]}',
         (2, b"", b"-:1: refused host bits: 10.0.0.5/8 (write 10.0.0.0/8)\n")),
        ("union --json --strict -", b'["10.0.0.0 255.0.0.0"]', (2, b"", b"-:1: refused address: 10.0.0.0 255.0.0.0 (write 10.0.0.0/8)\n")),
        ("union --json-field hooks -", b'{"hooks": ["10.0.0.5/8"], "web": ["x"]}', (0, b"10.0.0.0/8\n", b"")),
        ("union --json-field a -e ::1 -", b'{"\\u0061": "10.0.0.0/8"}', (0, b"10.0.0.0/8\n::1/128\n", b"")),
        ("union --json-field a -", b'{"a": "x", "a": "10.0.0.0/8"}', (0, b"10.0.0.0/8\n", b"")),
        ("union --json-field= -", b"", None),
        ("union --json -", b'"10.0.0.0/8"\n\n["::1"]\r\n', (0, b"10.0.0.0/8\n::1/128\n", b"")),
        ("union --json --strict -", b'"10.0.0.0/8"\n["x"]\n"y"', (2, b"", b"-:2: refused address: x\n-:3: refused address: y\n")),
        ("union --json -", b'"10.0.0.0/8"\n["::1"\n"::2"', (2, b"", b"-:2: not JSON, or more than 127 levels\n")),
        ("union --json-field a -", b'{"a": "10.0.0.0/8"}\n{"b": "x"}\n{"a": "::/0"}', (0, b"10.0.0.0/8\n::/0\n", b"")),
        ("union --json-field a -", b'{"b": "10.0.0.0/8"}\n{"b": "x"}\n', (2, b"", no_field % (b"-", b"a"))),
    ]:  # fmt: skip
        if wanted:
            yield f"{words} {data}", run(program, words.split(), folder, data), wanted
        else:
            status, output, error = run(program, words.split(), folder, data)
            yield words, (status, output, error.splitlines()[0]), (2, b"", b"--json-field: '': not a name of a field")
    for seed in range(50):
        rng = random.Random(seed)
        documents = [random_value(rng, 4) for _ in range(rng.randrange(1, 12))]
        lines = "\n".join(json.dumps(document, ensure_ascii=bool(seed % 2)) for document in documents)
        write(folder, "random_value", lines.encode())
        names = [rng.choice(NAMES) + str(rng.randrange(3)) for _ in range(40)]
        lacking = [name for name in names if not any(has_field(name, document) for document in documents)]
        named = [name for name in names if name not in lacking]
        lacking = lacking[: seed % 2 or not named]
        names = named + lacking
        values = list(fields_of(names, documents))
        others = [place for place, value in enumerate(values, 1) if not isinstance(value, str) or entry(value) is None]
        words = ["union", *(f"--json-field={name}" for name in names), "random_value"]
        status, output, error = run(program, words, folder)
        if lacking:
            wanted = (2, b"", no_field % (b"random_value", lacking[0].replace("\n", "\\x0a").encode()))
            yield f"no field, seed {seed}", (status, output, error), wanted
            continue
        places = [int(line.split(b":")[2]) for line in error.splitlines() if b" more refused lines" not in line]
        wanted = (2, b"", others[:100]) if others else (0, union([values]), [])
        yield f"fields, seed {seed}", (status, output, places), wanted


def of_memory(program, folder):
    """Long documents, which plain Rust reads in limited memory, or says that it is too little."""
    for first, item in HEAVY:
        last = b'"10.0.0.0/8"]' if first == b"[" else b'"a":"10.0.0.0/8"}'
        write(folder, "heavy", first + item * (HEAVY_LENGTH // len(item)) + last)
        whole, out_of_memory = (0, b"10.0.0.0/8\n", b""), (2, b"", b"out of memory\n")
        for kib, wanted in [(HEAVY_KIB, whole), (LITTLE_KIB, out_of_memory)]:
            limited = f'ulimit -v {kib}; exec "$0" "$@"'
            got = run("sh", ["-c", limited, program, "union", "--json", "heavy"], folder)
            yield f"{kib} KiB for {item[:20]}", got, wanted


def of_length(program, folder):
    """The longest document, and one that is longer by a byte."""
    text = b'["10.0.0.0/8"]'
    blanks = b" " * (LONGEST - len(text))
    yield "the longest document", run(program, ["union", "--json", "-"], folder, text + blanks), (0, b"10.0.0.0/8\n", b"")
    reported = b"-: more than 1,073,741,824 bytes\n"
    yield "a longer document", run(program, ["union", "--json", "-"], folder, text + blanks + b" "), (2, b"", reported)
