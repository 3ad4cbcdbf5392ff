#!/usr/bin/env bash
# Joins a large log by several processes: it is cut after line feeds, and each part is joined by itself. What is printed
# is that of the whole log, which is tested (`tests/in_parts`) and not proved.
#
# usage: examples/cidr_join/in_parts.sh OPTION .. < LOG > JOINED
#
# The options are those of cidr_join, also joined in one word. With `--tally` the counts of the parts are added up, of
# each text, and printed most first, those of one count in the order of the bytes of the texts. Without GNU parallel,
# the parts of a pipe are joined one after the other. With PARALLEL='--sshlogin ONE,TWO' they go to these machines,
# which need the program and the list, a regular file, at the same path; else the lists are copied first, so that they
# may be pipes. `--bad stop` is refused: a line would end its part only.
#
# If a line is too long, it is reported with its number in its part; the other parts are joined all the same, and the
# status is 2. With `--skip-bad` the refused lines of the list are reported for each part.
set -eEu -o pipefail
. "$(dirname "$0")/../parts.sh" || exit 2
. "$(dirname "$0")/../log_in_parts.sh"
. "$(dirname "$0")/../program.sh"
program=$(program_of cidr_join)
valued=" -f -k -d --nth --after --group --bad "

tally=
option() {
    case $1 in
    -f) [ $# -lt 2 ] || list "$2" ;;
    --tally) tally=1 ;;
    --bad)
        case ${2-} in
        stop) refuse "--bad $2: a line would end its part only" ;;
        esac
        ;;
    esac
}
each_option "$@"
check_lists

if [ ! "$tally" ]; then
    in_parts "${words[@]}"
    exit 0
fi
rows=$folder/rows
status=0
in_parts "${words[@]}" > "$rows" || status=2
# An empty log has no parts, but rows with `--zero`.
[ -s "$rows" ] || "${words[@]}" < /dev/null > "$rows" || status=2
# A row is a count, a tab and a text, which may have tabs too.
export LC_ALL=C
tab=$'\t'
awk '{ tab = index($0, "\t"); counts[substr($0, tab + 1)] += substr($0, 1, tab - 1) }
    END { for (text in counts) printf "%.0f\t%s\n", counts[text], text }' "$rows" |
    sort -t "$tab" -k 1,1nr -k 2
exit "$status"
