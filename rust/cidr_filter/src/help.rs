// Written by scripts/plain out of crates/cidr_filter/src/help.rt

//! What the program prints about itself.

use cidr_programs::log_programs::help::log_help;

/// What `--help` prints.
pub(crate) const HELP: &str = log_help!(
    "\
Prints the lines of logs whose address is in a list of IP networks.

    cidr_filter [OPTION..] (-f LIST | -e TEXT).. [FILE..]

    -f LIST         read networks (10.0.0.0/8, 10.0.0.1, 2001:db8::/32) and ranges (A - B) from a
                    file, one on each line; # and ; begin a comment; - is standard input
    -e TEXT         add this network or range
    --strict        refuse entries of the lists with host bits (10.0.0.5/8)
    --whole         refuse a list that does not end with a line feed, as it may have been cut off;
                    a list without any byte is such a list
    --masks         entries of the lists may also be an IPv4 address and, after blanks, its mask or
                    wildcard (10.0.0.0 255.0.0.0, 10.0.0.0 0.255.255.255)
    --read FORM     the lists are as cidr_merge --format FORM prints them: csv, ipset or nft; any
                    other line is refused, also a comment. Not with --masks or -e
    --skip-bad      report refused lines of the lists and use the others; without this option, a
                    refused line ends the program before any log is read",
    "
    -a              look for addresses anywhere in a line, or anywhere in the field that -k, -d or
                    -w select: 10.1.1.1:51234, [10.1.1.1], SRC=10.1.1.1, addr:10.1.1.1 and
                    [2001:db8::1]:443 have one; v10.1.2.3, 1.2.3.4.5 and 12:34:56 have none. A line
                    is selected if one of its addresses is in a network",
    "
    -o              print the addresses that are in a network, and with --networks the networks, one
                    on each line, instead of lines. Not with -v or --longest
    --mapped        an address ::ffff:A.B.C.D of a line is in a network if A.B.C.D is, too
    -4              only IPv4 addresses count, as if a line had no others. Not with -6, --nth or
                    --after
    -6              only IPv6 addresses count. Not with -4, --nth or --after
    --networks      a network in a line (10.1.0.0/16) counts too, and is in the list if all its
                    addresses are; without this option only its address is tested. Not with
                    --longest
    -v              print the lines whose address is in no network; with -a, those that have
                    addresses, none of which is
    -c              print only the number of selected lines of each FILE, after the name of the FILE
                    and a colon if there are several FILEs
    -l              print only the name of each FILE that has a selected line, or (standard input);
                    reading a FILE stops at its first selected line
    -q              print nothing, and stop at the first selected line, with status 0 even if an
                    earlier FILE could not be opened. Of -q, -l, -c and -o the first in this order
                    applies
    -m N            stop reading a FILE after N selected lines
    -H              begin each line, and each number of -c, with the name of its FILE, or (standard
                    input), and a colon. Not with -h
    -n              begin each line with its number in its FILE and a colon, after the name that -H
                    prints; with -o, each address
    -h              print no names (the default, except for -c with several FILEs)
    -Z              put a NUL byte after each name of a FILE that is printed, in place of the colon
                    or, with -l, of the line feed
    --longest       begin each line with the longest network that has its address (with -a, the
                    first of its addresses that is in one), and a tab; a range counts as the fewest
                    networks that make it up. Not with -v or -c
    --bad drop      a line without an address is never printed, not even with -v, as by default; how
                    many there are is not reported, nor are lines that are too long
    --bad keep      it is printed, after a minus sign and a tab with --longest
    --bad stop      it ends the program, and so does one that is too long
    --bad report    it is not printed; for each FILE is reported how many there are, and how many
                    are too long
    --quiet         as the first word: do not show on a terminal how much was read
    --help          print this text, as does -h alone
    --version       print the version

Options may follow FILEs; every word after -- is a FILE. Options of one letter can be joined, the
last with its value: -vk1, -e=10.0.0.0/8; --bad=keep is --bad keep. A FILE is a name, or - for
standard input, which is read if no FILE is given. Lines are printed unchanged; a last line without
a line feed gets one. A line has at most 1,048,576 bytes; a longer one has no address and is never
printed, and the first in each FILE is reported. A FILE that cannot be opened is reported, and the
others are read. A FILE with lines of which none has an address in that place is reported too.

Status: 0 if a line was selected, 1 if none was, 2 after wrong usage, a refused line, one that is
too long without --bad drop, a file that cannot be opened or read, a failed write, or lack of
memory, 141 if standard output is a pipe that nobody reads any more.

Examples:
    cidr_filter -f networks.txt access.log
    cidr_filter -a -f networks.txt auth.log
    tail -f access.log | cidr_filter -v -e 10.0.0.0/8
    cidr_filter -c -k 3 -d , -f networks.txt table.csv
    cidr_filter -k 2 -d , --nth last -f networks.txt proxied.csv
"
);

/// What `--version` prints.
pub(crate) const VERSION: &str = "cidr_filter 0.2.0-dev (plain Rust, made of proved sources)\n";

/// The name of the program.
pub(crate) const PROGRAM: &str = "cidr_filter";

/// How the program is used: what is reported for arguments that are not a command, after what is
/// wrong with them.
pub(crate) const USAGE: &str =
    "usage: cidr_filter [-v] [-c] [-H | -h] [-n] [-l] [-Z] [-q] [-o] [-m N] \
     [--after TEXT | [-a] [-k N] [-d CHAR | -w]] [--nth first|last|N] [-4 | -6] [--mapped] \
     [--networks] [--bad drop|keep|stop|report] [--longest] [--strict] [--whole] \
     [--masks | --read csv|ipset|nft] [--skip-bad] (-f LIST | -e TEXT).. [FILE..]; try --help\n";
