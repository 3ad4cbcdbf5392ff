"""The tag of a wheel, by what a library needs; and the files of a source distribution.

It needs build_wheel.py where that is in the repository, or in a source distribution."""

import os
import pathlib
import tarfile
import tempfile
import unittest
from unittest import mock

import build_wheel


class Wheel(unittest.TestCase):
    @unittest.skipUnless(os.name == "posix", "the tool that is made up is a script")
    def test_the_platform_of_a_wheel(self):
        # What objdump -p says of a library, and the tag that PEP 600 has for it.
        linux = (
            ("NEEDED  libc.so.6\n 0x00 02 GLIBC_2.2.5\n 0x00 03 GLIBC_2.14", "manylinux_2_17_x86_64"),
            ("NEEDED  libc.so.6\n 0x00 03 GLIBC_2.17\n 0x00 03 GLIBC_2.34", "manylinux_2_34_x86_64"),
            ("NEEDED  libc.so.6\n 0x00 03 GLIBC_2.14\n 0x00 02 GLIBC_ABI_DT_RELR", "manylinux_2_36_x86_64"),
            ("NEEDED  libc.musl-x86_64.so.1", "linux_x86_64"),
            ("NEEDED  libc.so", "linux_x86_64"),
        )
        with tempfile.TemporaryDirectory() as folder:
            tool = pathlib.Path(folder, "objdump")
            for said, wanted in linux:
                tool.write_text(f"#!/bin/sh\necho '{said}'\n")
                tool.chmod(0o755)
                with mock.patch.dict(os.environ, OBJDUMP=str(tool)), mock.patch.multiple(build_wheel, PLATFORM="linux-x86_64", LINUX=True):
                    self.assertEqual(build_wheel.platform_of(tool), wanted)
            with mock.patch.dict(os.environ, OBJDUMP=folder + "/none"), mock.patch.multiple(build_wheel, PLATFORM="linux-aarch64", LINUX=True):
                self.assertEqual(build_wheel.platform_of(tool), "linux_aarch64")
        for built_for, machine, wanted in (
            ("macosx-10.9-universal2", "x86_64", "macosx_10_9_x86_64"),
            ("macosx-10.13-universal2", "arm64", "macosx_11_0_arm64"),
            ("macosx-14.2-arm64", "arm64", "macosx_14_0_arm64"),
            ("macosx-14-arm64", "arm64", "macosx_14_0_arm64"),
            ("win-amd64", "AMD64", "win_amd64"),
        ):
            with mock.patch.multiple(build_wheel, PLATFORM=built_for, LINUX=False), mock.patch("platform.machine", lambda: machine):
                self.assertEqual(build_wheel.platform_of(pathlib.Path("none")), wanted)

    def test_tests_of_a_source_distribution(self):
        here = pathlib.Path(build_wheel.__file__).parent
        with tempfile.TemporaryDirectory() as folder, mock.patch.object(build_wheel, "_say"):
            with tarfile.open(pathlib.Path(folder, build_wheel.build_sdist(folder))) as archive:
                held = {name.partition("/")[2] for name in archive.getnames()}
        files = {file.name for file in here.glob("*.py")} | {f"ipnetwork/{name}" for name in build_wheel.MODULES}
        self.assertIn("test_sets.py", files)
        self.assertEqual(files - held, set())


if __name__ == "__main__":
    unittest.main()
