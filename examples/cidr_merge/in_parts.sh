#!/usr/bin/env bash
# Merges a large list by several processes: it is cut at line ends, each part is merged by itself, and what comes out is
# merged again. The result is the merge of the whole list, as `tests/cidr_merge` compares.
#
# usage: examples/cidr_merge/in_parts.sh [OPTION ..] < LIST > MERGED
#
# The options are `--block`, `--jobs` and `--sshlogin` of GNU parallel. With `--sshlogin ONE,TWO` the parts go to
# these machines, which need the program at the same path. Without GNU parallel, the parts of a pipe are merged one
# after the other; --block does nothing then. If a line is refused, or anything fails, nothing is printed, and the
# status is 2; a line is reported with its number in its part. The merges of the parts wait in a file of the folder
# TMPDIR, or else /tmp.
set -eEu -o pipefail
. "$(dirname "$0")/../parts.sh" || exit 2
. "$(dirname "$0")/../program.sh"
parallel_options "$@"
program=$(program_of cidr_merge)
in_parts "$program" union - > "$folder/parts"
"$program" union "$folder/parts"
