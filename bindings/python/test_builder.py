"""The builder of sets of addresses compared with Python's own ``set`` of the same addresses."""

import copy
import ipaddress
import itertools
import pickle
import random
import threading
import time
import unittest
from ipaddress import IPv4Address

from ipnetwork import AddressSet, AddressSetBuilder, IPv4Network, ip_network
from test_sets import EVERYTHING, WINDOWS, addresses, drawn, least, networks_of


class Builders(unittest.TestCase):
    def test_compared_with_set(self):
        rng = random.Random(58)
        for window in WINDOWS:
            for count in range(8):
                networks = drawn(rng, window, 8)
                builder, has = AddressSetBuilder(networks), addresses(networks)
                for _ in range(count * 8):
                    network = drawn(rng, window, 1)[0]
                    if rng.random() < 0.5:
                        builder.add(network)
                        has |= addresses([network])
                    else:
                        builder.discard(network)
                        has -= addresses([network])
                    if rng.random() < 0.05:
                        self.assertEqual([str(each) for each in builder.build()], least(has))
                more, fewer = drawn(rng, window, 3), drawn(rng, window, 3)
                builder.update(more)
                builder.difference_update(AddressSet(fewer))
                has = (has | addresses(more)) - addresses(fewer)
                for _ in range(2):
                    self.assertEqual([str(each) for each in builder.build()], least(has))

    def test_ends(self):
        builder = AddressSetBuilder(EVERYTHING)
        ends = networks_of("255.255.255.255 0.0.0.0 :: ffff:ffff:ffff:ffff:ffff:ffff:ffff:ffff")
        for network in ends:
            builder.discard(network)
        self.assertEqual(builder.build(), EVERYTHING - AddressSet(ends))
        self.assertEqual(len(builder.build()), 62 + 254)
        builder.discard(ip_network("0.0.0.0/0"))
        builder.discard(ip_network("8000::/0"))
        self.assertEqual(builder.build(), AddressSet())

    def test_values(self):
        builder = AddressSetBuilder(networks_of("10.128.0.0/9 10.0.0.0/9"))
        kept = builder.build()
        builder.discard(ip_network("10.0.0.0/9"))
        builder.add(ip_network("::/0"))
        for again in (copy.copy(builder), pickle.loads(pickle.dumps(builder))):
            self.assertEqual(again.build(), AddressSet(networks_of("10.128.0.0/9 ::/0")))
            again.add(ip_network("10.0.0.0/9"))
        builder.add(ip_network("10.0.0.0/8"))
        builder.discard(ip_network("::/0"))
        for again in (
            copy.copy(builder),
            copy.deepcopy(builder),
            pickle.loads(pickle.dumps(builder)),
        ):
            again.add(ip_network("::/0"))
            self.assertEqual(again.build(), AddressSet(networks_of("10.0.0.0/8 ::/0")))
        self.assertEqual(
            (builder.build(), repr(builder)),
            (kept, "AddressSetBuilder([IPv4Network('10.0.0.0/8')])"),
        )
        for wrong in (b"10.0.0.0/8", ipaddress.ip_interface("10.0.0.0/8"), IPv4Address("10.0.0.1"), None):
            for call in (builder.add, builder.discard, lambda each: builder.update([each])):
                with self.assertRaisesRegex(TypeError, type(wrong).__name__):
                    call(wrong)
        self.assertEqual(builder.build(), kept)

    def test_many_changes(self):
        # Of the same few networks in turn: what is kept does not grow, no change goes over all.
        rng = random.Random(59)
        networks = [IPv4Network.of(IPv4Address(rng.getrandbits(32)), 24) for _ in range(50_000)]

        def changed(size):
            builder, began = AddressSetBuilder(networks[:size]), time.process_time()
            for turn in range(20_000):
                builder.add(networks[turn % 7])
                builder.discard(networks[turn % 11])
            took = time.process_time() - began
            self.assertLess(len(builder._steps), 40_000)
            return took

        few, many = changed(500), changed(50_000)
        self.assertLess(many, 20 * few, "a change should not take time in proportion to the set")

    def test_threads(self):
        builder = AddressSetBuilder()
        parts = [
            networks_of(" ".join(f"10.{part}.{host}.0/25" for host in range(256)))
            for part in range(8)
        ]

        def add(part):
            for network in parts[part] * 10:
                builder.add(network)

        threads = [threading.Thread(target=add, args=(part,)) for part in range(8)]
        for thread in threads:
            thread.start()
        for thread in threads:
            thread.join()
        self.assertEqual(builder.build(), AddressSet(itertools.chain(*parts)))


if __name__ == "__main__":
    unittest.main()
