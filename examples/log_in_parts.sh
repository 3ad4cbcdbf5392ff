# shellcheck shell=bash disable=SC2034,SC2154
# What the scripts `in_parts.sh` of cidr_filter and cidr_join share, which read it with `.`, after parts.sh. They set
#
#   program     the program, by its path
#   valued      its options that take a value, between blanks: a letter as `-k`, and others, which may be `--NAME=VALUE`
#
# and have a function `option NAME [VALUE]`, which gets each option, and may set another `value`.

takes_value() {
    [[ $valued == *" $1 "* ]]
}

# Tells `option` each option of these words, and refuses FILEs, since the log is standard input. What is wrong with them
# otherwise, the program tells. `words` is then the command for a part.
each_option() {
    local word name rest value
    words=("$program")
    while [ $# -gt 0 ]; do
        word=$1 name=$1 rest=
        shift
        case $word in
        --) [ $# -eq 0 ] || refuse "$1: the log is standard input" ;;
        --*=*) name=${word%%=*} rest=${word#*=} ;;
        --*) ;;
        -?*)
            # Letters that take no value, and one that may.
            name=${word:0:2} rest=${word:2}
            while [ "$rest" ] && ! takes_value "$name"; do
                option "$name"
                name=-${rest:0:1} rest=${rest:1}
            done
            ;;
        *) refuse "$word: the log is standard input" ;;
        esac
        value=$rest
        if [[ $rest || $word == --*=* ]]; then
            option "$name" "$value"
            words+=("${word%"$rest"}$value")
        elif [ $# -gt 0 ] && takes_value "$name"; then
            value=$1
            option "$name" "$value"
            words+=("$word" "$value")
            shift
        else
            option "$name"
            words+=("$word")
        fi
    done
}

lists=()

# Reads a list once, into a copy that each part reads: of a pipe all parts but the first would find nothing, and a file
# may change meanwhile. The value of the option is then the copy. Other machines read the file that has this name there.
list() {
    [[ $1 != - && ! $1 -ef /dev/stdin ]] || refuse "-f $1: standard input is the log"
    if [ "$machines" ]; then
        [ -f "$1" ] || refuse "-f $1: no regular file, which other machines could read"
    elif [ -e "$1" ] && [ ! -d "$1" ]; then
        value=$folder/${#lists[@]}.list
        cat -- "$1" > "$value"
        lists+=("$1")
    fi
}

# The lists are read once before the log, so that what is refused of them is reported once, by the names of the lists.
check_lists() {
    local status=0 reported number
    : > "$folder/reported"
    "${words[@]}" < /dev/null > /dev/null 2> "$folder/reported" || status=$?
    reported=$(< "$folder/reported")
    for number in "${!lists[@]}"; do
        reported=${reported//"$folder/$number.list"/"${lists[number]}"}
    done
    [ ! "$reported" ] || printf '%s\n' "$reported" >&2
    [ $status -le 1 ] || exit 2
}
