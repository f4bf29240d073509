# shellcheck shell=sh
# Sourced by the scripts that people run; plain sh. A script's usage is the comment at its top; `name` is what messages call it, with its folder.

script=$(readlink -f "$0")
folder=${script%/*}
name=${script##*/}
[ -e "$folder/crates.txt" ] || name=${folder##*/}/$name

usage() { awk 'NR > 1 { if (!sub(/^# ?/, "")) exit; print }' "$script"; }

# fail MESSAGE: what was asked for cannot be done
fail() {
    echo "$name: $1" >&2
    exit 2
}

# misused MESSAGE: a call that a script does not know ends it, before any work
misused() {
    echo "$name: $1" >&2
    usage >&2
    exit 2
}

# help_or_known "$@": --help has its answer here, and no other option is known
help_or_known() {
    case ${1:-} in
        --help)
            [ $# -eq 1 ] || misused "--help stands alone"
            usage
            exit 0
            ;;
        -?*) misused "there is no option $1" ;;
    esac
}

# readable FILE: it is there, no folder, and may be read
readable() {
    [ -e "$1" ] || fail "there is no file $1"
    [ ! -d "$1" ] || fail "$1 is a folder, and no file"
    [ -r "$1" ] || fail "$1 cannot be read"
}

# takes_a_file "$@": of a script that reads a file, or standard input
takes_a_file() {
    [ "${1:-}" = - ] || help_or_known "$@"
    [ $# -le 1 ] || misused "it takes one file, and here are $#"
    [ "${1:--}" = - ] || readable "$1"
}

# takes_nothing "$@": of a script without arguments
takes_nothing() {
    help_or_known "$@"
    [ $# -eq 0 ] || misused "it takes no argument, and here is \"$1\""
}

# number NAME VALUE LEAST: it is a decimal number from LEAST on and below 2^31
number() {
    case $2 in
        '' | *[!0-9]* | 0?* | ???????????*) ;;
        *) [ "$2" -lt "$3" ] || [ "$2" -ge 2147483648 ] || return 0 ;;
    esac
    misused "$1 is a number from $3 to 2147483647, and not \"$2\""
}

# kit: the folder of the Rattle kit, with its programs in bin/ and its C compiler in toolchain/bin
kit() {
    command -v rt > /dev/null || {
        echo "$name: rt, the Rattle toolchain's command, is not on the PATH" >&2
        return 2
    }
    dirname "$(rt doc)"
}

# alone FOLDER COMMAND..: a command that builds in a repository's target/, when no other does (rt sees to the crates' folders itself). The lock is flock's, on
# the folder itself, which need not be writable; where there is no flock the command is run without it.
alone() (
    if command -v flock > /dev/null && [ -r "$1" ] && exec 9< "$1"; then
        flock -n 9 2> /dev/null || {
            # 1 is a lock that is held; anything else, a place that has no locks
            [ $? != 1 ] || {
                echo "$name: another run proves in $(cd "$1" && pwd): waiting for it" >&2
                flock 9
            }
        }
    fi
    shift
    "$@"
)
