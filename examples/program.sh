# The path of a program, for the scripts of examples/, which read this with `.`:
#
#   program_of NAME
#
# prints that of the folder that CIDR_PROGRAMS names, or of the proved one that is built here, or of the plain one, or of
# that of the PATH: of an installed script, always that.
program_of() {
    local top found
    top=$(cd "$(dirname "${BASH_SOURCE[0]}")/.." && pwd)
    for found in ${CIDR_PROGRAMS:+"$CIDR_PROGRAMS/$1"} "$top/crates/$1/out/$1" "$top/rust/target/release/$1"; do
        if [ -x "$found" ]; then
            printf '%s\n' "$found"
            return
        fi
    done
    command -v "$1" || {
        printf '%s: it is not built (make, or make plain)\n' "$1" >&2
        exit 2
    }
}
