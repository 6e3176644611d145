# usage.sh: for scripts that take numbers only. `numbers USAGE MOST WORD...` ends the script with the usage, status 0 for
# --help, and with a fault and the usage, status 2, for more than MOST words or one that is not a number from 1 on.
numbers() {
    usage="usage: $1" most=$2 fault=''
    shift 2
    case ${1-} in -h | --help) echo "$usage" && exit 0 ;; esac
    [ $# -le "$most" ] || fault="too many words: $*"
    for word in "$@"; do
        case $word in '' | 0* | *[!0-9]*) fault="not a number from 1 on: $word" ;; esac
    done
    [ -z "$fault" ] || { printf '%s\n%s\n' "$fault" "$usage" >&2 && exit 2; }
}
