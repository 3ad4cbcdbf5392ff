"""Which lines of a log have an address of a list: on one machine, or on many by `dask.distributed`.

    filter_by_dask.py [LINES [SCHEDULER]]

makes up a log of LINES lines (100000 if it is not given) and a list of networks, and asks of each part of the log, on the
workers of the scheduler at this address, which of its lines have an address of the list. Without a scheduler it starts one
and two workers, each a process of its own, which speak TCP over the loopback; the workers need this package, NumPy and
pandas. It prints how many lines there are and how many are kept, and ends with status 1 if one process, with the whole log
at once, keeps others.
"""

import random
import sys
from ipaddress import IPv4Address, IPv6Address

import pandas
from dask.distributed import Client, LocalCluster

from ipnetwork import AddressSet, ip_network
from ipnetwork.columns import is_member

PARTS = 8


def random_log(lines: int) -> pandas.DataFrame:
    """A log with addresses of both families, and one text in fifty that is no address."""
    rng = random.Random(30)
    texts = []
    for line in range(lines):
        if line % 50 == 0:
            texts.append("-")
        elif line % 3:
            texts.append(str(IPv4Address(10 << 24 | rng.getrandbits(24))))
        else:
            texts.append(str(IPv6Address(0x20010DB8 << 96 | rng.getrandbits(20) << 76 | rng.getrandbits(64))))
    return pandas.DataFrame({"line": range(lines), "address": texts})


def random_list() -> AddressSet:
    """A hundred networks within those of the log."""
    rng = random.Random(31)
    fours = [f"10.{rng.getrandbits(8)}.{rng.getrandbits(8)}.0/{rng.choice((16, 20, 24))}" for _ in range(50)]
    sixes = [f"2001:db8:{rng.getrandbits(16):x}::/{rng.choice((40, 44, 48))}" for _ in range(50)]
    return AddressSet(map(ip_network, fours + sixes))


def kept(part: pandas.DataFrame, allowed: AddressSet) -> pandas.DataFrame:
    """The lines of a part whose address is of the list; a text that is no address is of no list. A worker runs this."""
    return part[is_member(part.address, allowed, invalid=False)]


def by_workers(client: Client, log: pandas.DataFrame, allowed: AddressSet) -> pandas.DataFrame:
    step = -(-len(log) // PARTS)
    parts = [log.iloc[at : at + step] for at in range(0, len(log), step)]
    everywhere = client.scatter(allowed, broadcast=True)
    futures = client.map(kept, client.scatter(parts), [everywhere] * len(parts))
    return pandas.concat(client.gather(futures))


def main() -> None:
    lines = int(sys.argv[1]) if len(sys.argv) > 1 else 100_000
    log, allowed = random_log(lines), random_list()
    if len(sys.argv) > 2:
        with Client(sys.argv[2]) as client:
            own, workers = by_workers(client, log, allowed), len(client.scheduler_info()["workers"])
    else:
        with LocalCluster(
            n_workers=2, threads_per_worker=1, processes=True, protocol="tcp", host="127.0.0.1", dashboard_address=None
        ) as cluster, Client(cluster) as client:
            own, workers = by_workers(client, log, allowed), len(client.scheduler_info()["workers"])
    if not own.equals(kept(log, allowed)):
        raise SystemExit("the workers keep other lines than one process does")
    print(f"dask: {lines} lines, {len(own)} kept by {workers} workers as by one process")


if __name__ == "__main__":
    main()
