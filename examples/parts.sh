# shellcheck shell=bash disable=SC2034,SC2086,SC2154
# What the scripts of examples/ share that cut a large input in parts, which read it with `.`, after
# `set -eEu -o pipefail`. Whatever fails has the status 2, never 1, with which cidr_filter says that no line is selected.
# What is kept meanwhile is in a folder of TMPDIR, or else of /tmp.
#
# A regular file has one part for each job, of which there are as many as processors. Of GNU parallel they take the
# options --block SIZE, --jobs N (-j) and --sshlogin ONE,TWO (-S), also in the variable PARALLEL, and no others, nor those
# of its configuration: with --halt or --header lines are left out or repeated. With other jobs than a number, a block or
# other machines, and for a pipe, it cuts the input.
trap 'exit 2' ERR
set -f
folder=$(mktemp -d)
trap 'for job in $(jobs -p); do kill -- "-$job" 2> /dev/null || :; done; rm -rf "$folder"' EXIT
parallel=(parallel --plain --pipe --keep-order --block 64M)
machines=
block=
jobs=$(nproc 2> /dev/null) || jobs=

refuse() {
    printf '%s: %s\n' "${0##*/}" "$1" >&2
    exit 2
}

# Adds these options to those of GNU parallel. `machines` is not empty if they name other machines.
parallel_options() {
    while [ $# -gt 0 ]; do
        case $1 in
        -S* | --sshlogin | --sshlogin=*) machines=1 ;;
        --block | --block=*) block=1 ;;
        --jobs=*) jobs=${1#--jobs=} ;;
        -j* | --jobs) jobs=${1#-j} ;;
        *) refuse "$1: not an option that is taken; they are --block, --jobs (-j) and --sshlogin (-S)" ;;
        esac
        parallel+=("$1")
        case $1 in
        -[jS] | --block | --jobs | --sshlogin)
            [ $# -gt 1 ] || refuse "$1: a value is missing"
            [[ $1 != -j && $1 != --jobs ]] || jobs=$2
            shift
            parallel+=("$1")
            ;;
        esac
        shift
    done
}
parallel_options ${PARALLEL-}

# For parts that need a file which is only here.
not_elsewhere() {
    [ ! "$machines" ] || refuse "--sshlogin: the parts need a file of this machine"
}

# The words of a command, quoted for a shell, so that GNU parallel sees no replacement string such as `{}` in them.
quoted() {
    local word
    for word in "$@"; do
        word=${word//\'/\'\\\'\'}
        printf "'%s' " "${word//\{/\{\'\'}"
    done
}

# Runs a command on each part of standard input, and prints what the parts print, in their order: those of a regular file
# side by side, others on all processors by GNU parallel, or else one part after the other, of PART_LINES lines.
in_parts() {
    if is_cut_here; then
        by_ranges "$@"
    elif command -v parallel > /dev/null; then
        by_parallel "$@"
    else
        one_by_one "$@"
    fi
}

# Whether standard input is a regular file of which nothing was read, and each part has less than 4 GB, which `cidr` needs.
is_cut_here() {
    local position
    [[ -f /dev/stdin && ! $machines && ! $block && $jobs =~ ^[1-9][0-9]{0,2}$ && -r /proc/self/fdinfo/0 ]] || return 1
    read -r -u 3 _ position 3< /proc/self/fdinfo/0
    input=/proc/$$/fd/0
    size=$(stat -L -c %s "$input")
    [[ $position == 0 && $size -lt $((jobs * 4000000000)) ]]
}

# The number of bytes before the first line that begins at a byte or after it.
line_from() {
    local bytes
    [ "$1" -gt 0 ] || { echo 0; return; }
    bytes=$({ tail -c "+$1" "$input" || :; } | head -n 1 | wc -c)
    [ "$bytes" -gt 0 ] || refuse "standard input: it is shorter than before"
    echo $(($1 - 1 + bytes))
}

# Runs a command on these bytes of the file, all of which have to be read.
on_range() {
    local number=$1 from=$2 bytes=$3 read
    shift 3
    LC_ALL=C dd bs=1M iflag=skip_bytes,count_bytes,fullblock skip="$from" count="$bytes" \
        < "$input" 2> "$folder/read.$number" | "$@"
    read=$(awk '/ copied/ { print $1 }' "$folder/read.$number")
    [ "$read" = "$bytes" ] || refuse "standard input: only $read of $bytes bytes of a part were read"
}

# What the first part prints is printed at once, what the others print waits in files.
by_ranges() {
    local number status=0 from=0 to pids=()
    set -m
    for ((number = 1; number <= jobs; number++)); do
        to=$(line_from $((size * number / jobs)))
        [ "$to" -gt "$from" ] || continue
        if [ ${#pids[@]} -eq 0 ]; then
            on_range "$number" "$from" $((to - from)) "$@" &
        else
            on_range "$number" "$from" $((to - from)) "$@" > "$folder/printed.${#pids[@]}" &
        fi
        pids+=($!)
        from=$to
    done
    for number in "${!pids[@]}"; do
        wait "${pids[number]}" || status=2
        [ "$number" -eq 0 ] || cat "$folder/printed.$number"
        rm -f "$folder/printed.$number"
    done
    set +m
    return $status
}

# GNU parallel takes a read that fails for the end, does not see that its output is full, and at SIGHUP leaves the rest
# out: all three with status 0. So others read and write, and the parts must have all bytes that were read.
by_parallel() {
    local status=0
    LC_ALL=C dd bs=65536 2> "$folder/read" |
        PARALLEL_SHELL=$BASH "${parallel[@]}" --joblog "$folder/jobs" "$(quoted "$@")" | cat || status=2
    grep '^dd: ' "$folder/read" >&2 || :
    [ $status -eq 0 ] || return 2
    awk -F '\t' 'NR == FNR { read = $1 + 0; next } FNR > 1 { sent += $5 } END { exit sent != read }' \
        "$folder/read" "$folder/jobs" || refuse "GNU parallel left out a part"
}

# After a part with the status 2 the others are answered all the same.
one_by_one() {
    local status=0
    SHELL=$BASH split --lines="${PART_LINES:-500000}" \
        --filter="$(quoted "$@") || { [ \$? -eq 2 ] && echo > $(quoted "$folder/failed"); }" || status=2
    [ ! -s "$folder/failed" ] || status=2
    return $status
}
