#!/usr/bin/env bash
# Filters a large log by several processes: it is cut at line ends, and each part is filtered by
# itself. What is printed, and the status, are those of the whole log, which is tested
# (`tests/in_parts`) and not proved.
#
# usage: examples/cidr_filter/in_parts.sh OPTION .. < LOG > SELECTED
#
# The options are those of cidr_filter, also joined in one word. With `-c` the numbers of the
# parts are added up. `--bad stop` is refused: a line would end its part only; and so are `-m`,
# `-l`, `-q` and `-n`. Without GNU parallel, the parts of a pipe are filtered one after the other.
# The lists are copied first, so that they may be pipes; the parts are filtered on this machine.
#
# If a line is too long, it is reported with its number in its part; the other parts are filtered
# all the same, and the status is 2.
set -eEu -o pipefail
. "$(dirname "$0")/../parts.sh" || exit 2
. "$(dirname "$0")/../log_in_parts.sh"
. "$(dirname "$0")/../program.sh"
not_elsewhere
program=$(program_of cidr_filter)
valued=" -f -e -k -d -m --nth --after --bad --read "

counts=
named=
option() {
    case $1 in
    -f) [ $# -lt 2 ] || list "$2" ;;
    -c) counts=1 ;;
    -H) named='(standard input):' ;;
    -n) refuse "-n: each part would be numbered from 1" ;;
    -[mlq]) refuse "$1: a line would end its part only" ;;
    --bad)
        case ${2-} in
        stop) refuse "--bad $2: a line would end its part only" ;;
        esac
        ;;
    esac
}
each_option "$@"
check_lists

failed=
# A part of which no line is selected has status 1.
part='folder=$1; shift; status=0
"$0" "$@" || status=$?
[ $status -ne 0 ] || : > "$folder/selected" || exit 2
[ $status -le 1 ] || exit $status'

filter_parts() {
    in_parts bash -c "$part" "$program" "$folder" "${words[@]:1}"
}

if [ "$counts" ]; then
    filter_parts > "$folder/counts" || failed=1
    total=0
    while read -r count; do
        count=${count#"$named"}
        [[ $count =~ ^[0-9]+$ ]] || exit 2
        total=$((total + count))
    done < "$folder/counts"
    printf '%s\n' "$named$total"
else
    filter_parts || failed=1
fi
[ ! "$failed" ] || exit 2
[ -e "$folder/selected" ] || exit 1
