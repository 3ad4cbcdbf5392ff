"""Random texts and numbers, and what ``ipaddress`` says of them, for the comparisons with it."""

from ipaddress import IPv4Address, IPv6Address

BYTES = "0123456789abcdefABCDEF..::://+- x%g\0\u0661\u00e9"


def number(rng, width):
    """A number with many zero bits, or many ones, or neither."""
    a = rng.getrandbits(width)
    kind = rng.randrange(4)
    if kind == 0:
        return a & rng.getrandbits(width) & rng.getrandbits(width)
    if kind == 1:
        return a | rng.getrandbits(width) | rng.getrandbits(width)
    return a


def near(rng, width, other):
    """A number that shares about its first bits with another, so that questions have both answers."""
    return other ^ (number(rng, width) >> rng.randrange(width + 1))


def text_of_v6(rng):
    groups = [rng.choice((0, 0, rng.getrandbits(16), rng.getrandbits(4), 0xFFFF)) for _ in range(8)]
    kind = rng.randrange(5)
    if kind == 0:
        return ":".join(f"{group:04X}" for group in groups)
    if kind == 1:
        front = ":".join(f"{group:x}" for group in groups[:6])
        return f"{front}:{IPv4Address(groups[6] << 16 | groups[7])}"
    if kind == 2:
        return f"::{'ffff:' if rng.randrange(2) else ''}{IPv4Address(groups[6] << 16 | groups[7])}"
    return str(IPv6Address(sum(group << 16 * place for place, group in enumerate(groups))))


def suffix(rng, width):
    kind = rng.randrange(10)
    if kind == 0:
        return ""
    if kind == 1:
        return f"/+{rng.randrange(width + 9)}"
    if kind == 2:
        return f"/{rng.randrange(width + 9):05}"
    if kind == 3:
        return f"/{IPv4Address(2**32 - 2 ** rng.randrange(33))}"
    if kind == 4:
        return f"/{IPv4Address(2 ** rng.randrange(33) - 1)}"
    return f"/{rng.randrange(width + 3)}"


def mutated(rng, text):
    for _ in range(rng.randrange(1, 4)):
        place = rng.randrange(len(text) + 1)
        kind = rng.randrange(3)
        if kind == 0:
            text = text[:place] + rng.choice(BYTES) + text[place:]
        else:
            text = text[:place] + (rng.choice(BYTES) if kind == 1 else "") + text[place + 1 :]
    return text


def is_mask(text):
    """Whether a dotted suffix is one of the 33 masks: ipaddress takes masks of host bits too, ours takes none."""
    try:
        ones = int(IPv4Address(text)) ^ 0xFFFFFFFF
    except ValueError:
        return False
    return ones & (ones + 1) == 0


def reference(kind, text):
    """What ipaddress says of a text, with the listed differences of grammar taken out: address and prefix length."""
    address, slash, given = text.partition("/")
    if "%" in address:
        return None
    if "." in given and not is_mask(given):
        return None
    if given.startswith("+"):
        given = given[1:]
        if not (given.isascii() and given.isdigit()):
            return None
    try:
        interface = kind(f"{address}{slash}{given}")
    except ValueError:
        return None
    return interface.ip, interface.network.prefixlen


def canonical(address, prefixlen):
    if address.version == 6 and address.ipv4_mapped is not None:
        return f"::ffff:{address.ipv4_mapped}/{prefixlen}"
    return f"{address}/{prefixlen}"


def cause(kind, text):
    """Why a text that names no network of a family is refused: its format, its address or its prefix length."""
    if text.count("/") > 1:
        return "format"
    address = text.partition("/")[0]
    try:
        if "%" in address:
            return "address"
        kind(address)
    except ValueError:
        return "address"
    return "prefix"
