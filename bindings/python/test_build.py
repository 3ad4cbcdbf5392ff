"""The version of the library that is loaded, and which build it is; a library of another version is refused.

If the environment has IPNETWORK_BUILD, as in bindings/check, this is the text that the library should give.
"""

import os
import pathlib
import pydoc
import shutil
import subprocess
import sys
import tempfile
import unittest

import ipnetwork

BUILDS = ("proved", "plain Rust, made of proved sources")
#: A library that has only its version, as one that is older or newer than the package.
OTHER = """unsigned ipnetwork_abi_version(void) { return %d; }
unsigned ipnetwork_abi_minor_version(void) { return %d; }
"""


class Build(unittest.TestCase):
    def test_what_is_loaded(self):
        self.assertRegex(ipnetwork.__version__, r"\A\d+\.\d+\.\d+(-dev)?\Z")
        self.assertIn(ipnetwork.__build__, BUILDS)
        got = f"{ipnetwork.__version__} ({ipnetwork.__build__})"
        self.assertEqual(got, os.environ.get("IPNETWORK_BUILD", got))

    def test_help_names_the_build_and_no_other(self):
        shown = pydoc.plain(pydoc.render_doc(ipnetwork))
        self.assertIn(ipnetwork.__version__, shown)
        build = f"__build__ = {ipnetwork.__build__!r}"
        self.assertIn(build, shown)
        self.assertNotIn("proved", shown.replace(build, ""))

    @unittest.skipUnless(shutil.which("cc"), "there is no cc")
    @unittest.skipUnless(sys.platform == "linux", "the library has another name")
    def test_another_version_is_refused(self):
        for version, minor in ((2, 9), (3, 1), (5, 0)):
            with self.subTest((version, minor)), tempfile.TemporaryDirectory() as folder:
                source, library = (pathlib.Path(folder, name) for name in ("other.c", "other.so"))
                source.write_text(OTHER % (version, minor))
                subprocess.run(["cc", "-shared", "-fPIC", source, "-o", library], check=True)
                where = {**os.environ, "IPNETWORK_LIBRARY": str(library)}
                words = [sys.executable, "-c", "import ipnetwork"]
                ran = subprocess.run(words, env=where, capture_output=True, text=True)
                self.assertEqual(ran.returncode, 1)
                self.assertIn("is of another version than this module", ran.stderr)


if __name__ == "__main__":
    unittest.main()
