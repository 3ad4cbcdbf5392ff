"""What cidr_filter tells at its end of lines without an address. Rows on other things take it away, and see that some lines
have one and some have none; it has rows of its own."""

import re

import limits

REPORTED = re.compile(rb"^cidr_filter: ([0-9]+) of ([0-9]+) lines ha(?:s|ve) (?:no address|fewer than [0-9]+ addresses) .*\n", re.M)

# Words, what is read, and what is reported.
ROWS = [
    ("-e 10.0.0.0/8", b"10.0.0.1\nx\n11.0.0.1\n\n", b"cidr_filter: 2 of 4 lines have no address in field 1\n"),
    ("-v -e 10.0.0.0/8", b"10.0.0.1\nx\n", b"cidr_filter: 1 of 2 lines has no address in field 1\n"),
    ("-c -w -k -2 -e 10.0.0.0/8", b"10.0.0.1  a\n10.0.0.1\n", b"cidr_filter: 1 of 2 lines has no address in word -2\n"),
    ("-o --nth 2 -e ::/0", b"::1 ::2\n::1\n", b"cidr_filter: 1 of 2 lines has fewer than 2 addresses anywhere in it\n"),
    ("--after a= -e ::/0", b"a=::1\nb=::1 a=\n", b"cidr_filter: 1 of 2 lines has no address after a=\n"),
    ("-l -v -e ::/0", b"::1\nx\n", b"cidr_filter: 1 of 2 lines has no address in field 1\n"),
    ("-4 -e ::/0", b"::1\n10.0.0.1\n", b"cidr_filter: 1 of 2 lines has no address in field 1\n"),
    # several logs, of which one has no address, and one is not read to its end
    ("-e ::/0 - two two", b"::1\nx\n", b"cidr_filter: 3 of 6 lines have no address in field 1\n"),
    ("-e ::/0 none two", b"", b"cidr_filter: none: no line has an address in field 1\ncidr_filter: 1 of 2 lines has no address in field 1\n"),
    ("-e ::/0 none", b"", b"cidr_filter: none: no line has an address in field 1\n"),
    ("-l -e ::/0", b"x\n::1\nx\n", b""),
    ("-m 1 -e ::/0 - two", b"x\n::1\nx\n", b""),
    # a line that is too long is one of the lines
    ("-e ::/0", b"::1\nx\n" + b"1" * 1048577 + b"\n", b"cidr_filter: -:3: line too long\ncidr_filter: 1 of 3 lines has no address in field 1\n"),
    # every line has an address; nothing is printed, or it is said what becomes of the others
    ("-e ::/0", b"::1\n10.0.0.1\n", b""),
    ("-e ::/0", b"", b""),
    ("-q -e ::/0", b"x\n::1\n10.0.0.1\n", b""),
    ("-q -e 10.0.0.0/8", b"x\n::1\n", b""),
    ("--bad drop -e ::/0", b"::1\nx\n", b""),
    ("--bad keep -e ::/0", b"::1\nx\n", b""),
    ("--bad stop -e ::/0", b"::1\nx\n", b"cidr_filter: -:2: refused address\n"),
    ("--bad report -e ::/0", b"::1\nx\n", b"cidr_filter: -: lines without an address: 1, too long: 0\n"),
]
FILES = {"two": b"x\n::1\n", "none": b"x\n10.0.0\n"}


def rows(program, folder):
    """A name of each row, whether it is as it should be, and what was reported."""
    for name, content in FILES.items():
        with open(f"{folder}/{name}", "wb") as file:
            file.write(content)
    for words, given, reported in ROWS:
        got = limits.run([program, *words.split(" ")], input=given, cwd=folder, capture_output=True)
        yield f"{words}, lines without an address", got.stderr == reported, got.stderr


def run(words, **how):
    """A run, without what it tells of such lines."""
    got = limits.run(words, **how)
    reported = REPORTED.findall(got.stderr or b"")
    if len(reported) == 1 and 0 < int(reported[0][0]) < int(reported[0][1]):
        got.stderr = REPORTED.sub(b"", got.stderr)
    return got
