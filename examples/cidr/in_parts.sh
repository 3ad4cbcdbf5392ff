#!/usr/bin/env bash
# Answers a large input by several processes: it is cut at line ends, each part is answered by itself, and the answers
# come out in the order of the lines. For inputs without `add`, `drop` and `find`, as the law `split_at_line_ends` says.
#
# usage: examples/cidr/in_parts.sh [OPTION ..] < INPUT > OUTPUT
#
# The options are `--block`, `--jobs` and `--sshlogin` of GNU parallel. With `--sshlogin ONE,TWO` the parts go to
# these machines, which need the program at the same path. Without GNU parallel, the parts of a pipe are answered one
# after the other; --block does nothing then. The status is 0, or 2 if anything failed.
set -eEu -o pipefail
. "$(dirname "$0")/../parts.sh" || exit 2
. "$(dirname "$0")/../program.sh"
parallel_options "$@"
program=$(program_of cidr)
in_parts "$program"
