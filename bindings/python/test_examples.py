"""Each public name has a text, and each call a signature; the examples of the texts are run."""

import doctest
import inspect
import ipaddress
import pydoc
import sys
import unittest

import ipnetwork

SCOPE = {**vars(ipaddress), **vars(ipnetwork)}
PUBLIC = [(name, getattr(ipnetwork, name)) for name in ipnetwork.__all__ if name != "CORE"]
#: Python 3.9 has no signature of a class of an extension.
WITHOUT_SIGNATURES = sys.version_info < (3, 10) and ipnetwork.CORE == "native"


def members():
    """Each public method, class method and property of the public classes, with its name."""
    for name, kind in PUBLIC:
        for base in kind.__mro__ if isinstance(kind, type) else ():
            if not base.__module__.startswith("ipnetwork"):
                continue
            for part, value in vars(base).items():
                if not part.startswith("_"):
                    yield f"{name}.{part}", value, getattr(kind, part)


class Texts(unittest.TestCase):
    def test_examples(self):
        finder, runner = doctest.DocTestFinder(), doctest.DocTestRunner()
        for name, value in [("ipnetwork", ipnetwork), *PUBLIC]:
            for test in finder.find(value, name, module=False, globs=dict(SCOPE)):
                runner.run(test)
        tried = runner.summarize(verbose=False)
        self.assertEqual(tried.failed, 0)
        self.assertGreater(tried.attempted, 60)

    def test_texts(self):
        for name, value in PUBLIC:
            self.assertTrue(inspect.getdoc(value), name)
        for name, value, _ in members():
            if name.split(".")[1] not in ("version", "max_prefixlen"):
                self.assertTrue(inspect.getdoc(value), name)

    def test_signatures(self):
        for name, value in PUBLIC:
            if not (isinstance(value, type) and (WITHOUT_SIGNATURES or issubclass(value, Exception))):
                inspect.signature(value)
        for name, _, value in members():
            if callable(value):
                with self.subTest(name):
                    inspect.signature(value)
        classes = () if WITHOUT_SIGNATURES else (ipnetwork.IPv4Network, ipnetwork.IPv6Network)
        for made in (ipnetwork.ip_network, *classes):
            self.assertEqual(list(inspect.signature(made).parameters), ["text"])
        subnet_of = inspect.signature(ipnetwork.IPv6Network.subnet_of)
        self.assertEqual(list(subnet_of.parameters), ["self", "other"])

    def test_help(self):
        shown = pydoc.plain(pydoc.render_doc(ipnetwork))
        for name, _ in PUBLIC:
            self.assertIn(name, shown)
        for line in ("subnet_of(self, other", "contains_column(self, packed", "class AddressSet"):
            self.assertIn(line, shown)


if __name__ == "__main__":
    unittest.main()
