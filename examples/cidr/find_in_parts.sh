#!/usr/bin/env bash
# Answers a large input by several processes that all have the same routes: the input is cut at line ends, and each part
# is answered after the routes, whose own answers are left out. For inputs without `add` and `drop`, as the law
# `split_at_line_ends` says, if there is memory for the routes.
#
# usage: examples/cidr/find_in_parts.sh ROUTES < INPUT > OUTPUT
#
# ROUTES is a file of lines such as `add 10.0.0.0/8 1`, which is read once, so that it may be a pipe. The status is 0,
# or 2 if anything failed. Without GNU parallel, the parts of a pipe are answered one after the other.
set -eEu -o pipefail
. "$(dirname "$0")/../parts.sh" || exit 2
. "$(dirname "$0")/../program.sh"
not_elsewhere
program=$(program_of cidr)
[ $# -eq 1 ] || refuse "usage: ${0##*/} ROUTES < INPUT > OUTPUT"
[ ! "$1" -ef /dev/stdin ] || refuse "$1: standard input is the input"
routes=$folder/routes
cat -- "$1" > "$routes"
[ -z "$(tail -c 1 "$routes")" ] || refuse "$1: the last line has no line feed"
part='set -o pipefail; cat "$1" - | "$0" | tail -n +"$2" || exit 2'
in_parts bash -c "$part" "$program" "$routes" $(($(wc -l < "$routes") + 1))
