"""CPython's own test of ``ipaddress``, recorded and replayed over this package.

    replay_test_ipaddress.py

runs ``test.test_ipaddress`` of the Python that runs this (Debian: the package libpython3.11-testsuite, or that of its
version), records each call of a network or an interface from outside ``ipaddress`` with its result, and makes those calls
here that the package has too. Any difference ends it with status 1, but for those of DIFFERENCES, which are counted; they
are those that bindings/README.md lists.
"""

import collections
import functools
import ipaddress
import itertools
import operator
import unittest
from ipaddress import IPv4Interface, IPv6Interface, _BaseNetwork

import ipnetwork
from ipnetwork import IPv4Network, IPv6Network

DIFFERENCES = (
    "host bits are kept",
    "a plus before the prefix length",
    "a mask of host bits",
    "a zone",
    "order of interfaces",
    "a network of one address is a member",
)
INTERFACES = (IPv4Interface, IPv6Interface)
THEIRS = (_BaseNetwork, *INTERFACES)
ORDERS = ("__eq__", "__ne__", "__lt__", "__le__", "__gt__", "__ge__")
CALLS = ("__contains__", "__getitem__", "__iter__", "__str__", "subnet_of", "supernet_of", "overlaps", *ORDERS)

calls = []
depth = 0


def record(owner, name):
    """Has the calls of a method recorded, but not those that ``ipaddress`` itself makes."""
    real = getattr(owner, name)

    @functools.wraps(real)
    def recorded(*arguments, **named):
        global depth
        depth += 1
        try:
            outcome = real(*arguments, **named)
            return outcome
        except Exception as error:
            outcome = type(error)
            raise
        finally:
            depth -= 1
            if depth == 0:
                calls.append((name, arguments, named, outcome))

    setattr(owner, name, recorded)
    return real


def record_all():
    """Records, and gives what undoes it."""
    kept = []
    owners = [(kind, "__init__") for kind in (ipaddress.IPv4Network, ipaddress.IPv6Network, *INTERFACES)]
    owners += [(owner, name) for name in CALLS for owner in THEIRS if hasattr(owner, name)]
    for owner, name in owners:
        own = owner.__dict__.get(name)
        record(owner, name)
        kept.append((owner, name, own))
    kept.append((ipaddress, "collapse_addresses", ipaddress.collapse_addresses))
    record(ipaddress, "collapse_addresses")
    return kept


def undo(kept):
    for owner, name, own in reversed(kept):
        if own is None:
            delattr(owner, name)
        else:
            setattr(owner, name, own)


def zoned(given):
    return getattr(getattr(given, "network_address", given), "scope_id", None) is not None


def ours(given):
    """A network or an interface of ``ipaddress`` as one of this package."""
    return (IPv4Network if given.version == 4 else IPv6Network).from_ipaddress(given)


def outcome_of(call):
    try:
        return call()
    except Exception as error:
        return type(error)


def is_host_mask(text):
    try:
        bits = int(ipaddress.IPv4Address(text))
    except ValueError:
        return False
    return bits & (bits + 1) == 0


def parts(network):
    ends = network.network_address, network.broadcast_address, network.netmask
    return (*ends, network.num_addresses, network.prefixlen)


def read(kind, given, named, theirs):
    """Reads what a class of ``ipaddress`` read: the difference, or None."""
    own_kind = IPv6Network if issubclass(kind, (ipaddress.IPv6Network, IPv6Interface)) else IPv4Network
    own = outcome_of(lambda: own_kind(given))
    text = given if isinstance(given, str) else ""
    refused, missing = isinstance(theirs, type), isinstance(own, type)
    if missing and "%" in text:
        return "a zone"
    if refused and not missing:
        if "/+" in text:
            return "a plus before the prefix length"
        if own.network_address != own.ip and issubclass(kind, _BaseNetwork) and named.get("strict", True):
            return "host bits are kept"
    if missing and not refused and is_host_mask(text.partition("/")[2]):
        return "a mask of host bits"
    if refused or missing:
        # Each error of ipaddress about a text is a ValueError, as each here.
        alike = refused and missing and issubclass(theirs, ValueError) == issubclass(own, ValueError)
        return None if alike else f"{own} for {theirs}"
    network = theirs if issubclass(kind, _BaseNetwork) else theirs.network
    if parts(own) != parts(network):
        return f"{parts(own)} for {parts(network)}"
    return None


def ask(name, arguments, theirs):
    """Makes the call of a network or an interface here: the difference, None, or NotImplemented if it has no such call."""
    one, *others = arguments
    if zoned(one) or name != "__contains__" and any(map(zoned, others)):
        return "a zone"
    network = ours(one)
    if name in ORDERS:
        # A network is not compared with an interface or an address: these are not of one kind there either.
        if not isinstance(others[0], THEIRS) or isinstance(others[0], INTERFACES) != isinstance(one, INTERFACES):
            return NotImplemented
    elif isinstance(one, INTERFACES) and name not in ("__str__",):
        return NotImplemented
    given = [ours(each) if isinstance(each, THEIRS) and name != "__contains__" else each for each in others]
    call = getattr(operator, name) if name in ORDERS else getattr(type(network), name)
    own = outcome_of(lambda: call(network, *given))
    if name == "__iter__":
        own, theirs = list(itertools.islice(own, 300)), list(itertools.islice(iter(one), 300))
    if isinstance(one, INTERFACES) and name in ORDERS[2:] and own != theirs:
        return "order of interfaces"
    if name == "__contains__" and isinstance(others[0], _BaseNetwork) and others[0].num_addresses == 1 and own is True:
        return "a network of one address is a member"
    return None if own == theirs else f"{own} for {theirs}"


def replay(name, arguments, named, theirs):
    if name == "__init__":
        given = arguments[1] if len(arguments) > 1 else named.get("address")
        if not isinstance(given, (str, bytes)):
            return NotImplemented
        strict = named if len(arguments) < 3 else {"strict": arguments[2]}
        return read(type(arguments[0]), given, strict, arguments[0] if theirs is None else theirs)
    if name == "collapse_addresses":
        given = arguments[0]
        if not isinstance(given, (list, tuple)) or not all(isinstance(each, _BaseNetwork) for each in given):
            return NotImplemented
        if any(map(zoned, given)):
            return "a zone"
        own = outcome_of(lambda: list(map(str, ipnetwork.collapse_addresses(map(ours, given)))))
        wanted = theirs if isinstance(theirs, type) else list(map(str, ipaddress.collapse_addresses(given)))
        return None if own == wanted else f"{own} for {wanted}"
    return ask(name, arguments, theirs)


def main():
    from test import test_ipaddress

    kept = record_all()
    try:
        suite = unittest.defaultTestLoader.loadTestsFromModule(test_ipaddress)
        ran = unittest.TextTestRunner(verbosity=0, stream=open("/dev/null", "w")).run(suite)
    finally:
        undo(kept)
    seen, wrong = collections.Counter(), []
    for name, arguments, named, theirs in calls:
        difference = replay(name, arguments, named, theirs)
        if difference is None:
            seen["same"] += 1
        elif difference is NotImplemented:
            seen["not here"] += 1
        elif difference in DIFFERENCES:
            seen[difference] += 1
        else:
            shown = [repr(each) for each in arguments if not isinstance(each, THEIRS) or hasattr(each, "network_address")]
            wrong.append(f"{name} of {', '.join(shown)}: here {difference}")
    if wrong:
        raise SystemExit("\n".join([*wrong[:20], f"{len(wrong)} of {len(calls)} calls differ"]))
    if seen["same"] < 1000:
        raise SystemExit(f"only {seen['same']} calls were replayed: {seen}")
    listed = ", ".join(f"{name} {seen[name]}" for name in DIFFERENCES if seen[name])
    print(f"Python: {ran.testsRun} tests of CPython's test_ipaddress, {len(calls)} calls: {seen['same']} the same here, "
          f"{seen['not here']} of calls or arguments that are not here, and as listed: {listed}")


if __name__ == "__main__":
    main()
