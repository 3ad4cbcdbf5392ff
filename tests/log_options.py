"""What options mean that all programs for logs share: rows for tests/cidr_filter and tests/cidr_join. The addresses are
written by hand, as awk and cut give the fields."""

# The options that say where the address of a line is; lines, and of each the address there, or "" if there is none.
PLACES = [
    ("-k 2 -d ,", {"a,10.0.0.1,c": "10.0.0.1", "a,,10.0.0.1": "", ",10.0.0.1": "10.0.0.1", "a": "", "a,10.0.0.1\r": "10.0.0.1"}),
    ("-k 1", {"10.0.0.1 a": "10.0.0.1", " 10.0.0.1": "", "": ""}),
    ("-w -k2", {" \ta  10.0.0.1\t b": "10.0.0.1", "10.0.0.1": "", "a\t10.0.0.1": "10.0.0.1"}),
    ("-wa -k 2", {"10.0.0.9 x=10.0.0.1:80": "10.0.0.1", "10.0.0.1 a": ""}),
    # counted from the end, as awk has $NF and $(NF - 1), with -F'[,]' or the default, and `rev | cut | rev`
    ("-k -1 -d ,", {"a,10.0.0.1": "10.0.0.1", "10.0.0.1": "10.0.0.1", "10.0.0.1,": "", "10.0.0.1,,": "", "": "", ",10.0.0.1\r": "10.0.0.1"}),
    ("-k-2 -d ,", {"a,10.0.0.1,c": "10.0.0.1", "10.0.0.1,": "10.0.0.1", "10.0.0.1,,": "", "10.0.0.1": "", ",10.0.0.1,,": "", "10.0.0.1,b,c": ""}),
    ("-k -3", {"10.0.0.1  a": "10.0.0.1", "10.0.0.1 a b": "10.0.0.1", "a 10.0.0.1 b c": "10.0.0.1", "10.0.0.1 a": ""}),
    ("-w -k -1", {" a \t 10.0.0.1 \t": "10.0.0.1", "10.0.0.1": "10.0.0.1", "10.0.0.1 a": "", " \t": "", "": ""}),
    ("-wk-2", {"10.0.0.1  a \t": "10.0.0.1", "\t10.0.0.1\ta": "10.0.0.1", "a 10.0.0.1 b c": "", " 10.0.0.1 ": ""}),
    ("-k 1 -k -01", {"10.0.0.2 10.0.0.1": "10.0.0.1"}),
    ("-wa -k -1", {"10.0.0.9 x=10.0.0.1:80": "10.0.0.1", "10.0.0.1 a": ""}),
    ("-k -2 -d ; --nth last", {"10.0.0.9;10.0.0.8, 10.0.0.1;b": "10.0.0.1", "10.0.0.1": ""}),
    ("-k -4294967295 -k -1", {"10.0.0.1": "10.0.0.1"}),
    # a byte order mark is passed over once, at the start of the first line, as `sed '1s/^\xEF\xBB\xBF//'` removes it
    ("-k 1", {"\ufeff10.0.0.1 a": "10.0.0.1", "\ufeff10.0.0.1 b": ""}),
    ("-k 1", {"": "", "\ufeff10.0.0.1": "", "10.0.0.2": "10.0.0.2"}),
    ("-k 1", {"\ufeff\ufeff10.0.0.1": "", "10.0.0.1": "10.0.0.1"}),
    ("-k -1", {"\ufeff\r": "", "10.0.0.1": "10.0.0.1"}),
    ("-k 2 -d ,", {"\ufeff,10.0.0.1": "10.0.0.1", "\ufeff,10.0.0.2": "10.0.0.2"}),
    ("-w", {"\ufeff \t10.0.0.1 a": "10.0.0.1", "\ufeff\t10.0.0.1": ""}),
    ("-a", {"\ufeff10.0.0.1:80": "10.0.0.1", "\ufeff10.0.0.2": "10.0.0.2"}),
    ("--nth 1", {"\ufeff10.0.0.1 10.0.0.2": "10.0.0.1"}),
    ("--after ip=", {"\ufeffip=10.0.0.1": "10.0.0.1", "ip=x": ""}),
]

# Options that are refused, and what is wrong with them.
WRONG = [
    (["-k", "0"], "-k: 0: not a field number"),
    (["-k", "4294967296"], "-k: 4294967296: not a field number"),
    (["-k4294967296"], "-k4294967296: not a field number"),
    (["-k", "+1"], "-k: +1: not a field number"),
    *((["-k", value], f"-k: {value}: not a field number") for value in ("-0", "-", "--1", "-1-", "1-", "- 1", "-+1", "-1x", "-4294967296", "-18446744073709551617", "-99999999999999999999")),
    (["-k-"], "-k-: not a field number"),
    (["-k-0"], "-k-0: not a field number"),
    (["-k", "1", "-1"], "-1: unknown option"),
    (["-k", "-1", "-w", "-d", ","], "-w does not go with -d"),
    (["--after", "x", "-k", "-1"], "--after goes with none of -a, -k, -d and -w"),
    (["-k", "2", "-w", "-d", ","], "-w does not go with -d"),
]


# Places that no line has, and how that is reported.
LACKING = [
    ("-k 2", "in field 2"),
    ("-w -k 3", "in word 3"),
    ("-k -02", "in field -2"),
    ("-wk-9", "in word -9"),
]


def rows(words, shown, usage):
    """The rows of a program: its words for any address, what it prints of a line with this address, and what it reports
    of a wrong command line."""
    for options, lines in PLACES:
        yield (f"{words} {options}", "".join(f"{line}\n" for line in lines).encode(), "".join(shown(*one) for one in lines.items()).encode(), b"", 0)
    for options, place in LACKING:
        output = shown("10.0.0.1", "").encode()
        reported = usage(b"").split(b":")[0] + f": -: no line has an address {place}\n".encode()
        yield (f"{words} {options}", b"10.0.0.1\n", output, reported, 0 if output else 1)
    for options, problem in WRONG:
        yield (words.split(" ") + options, b"", b"", usage(problem.encode()), 2)
