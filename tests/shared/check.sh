# shellcheck shell=sh
#
# Usage: subject=NAME; . tests/shared/check.sh    (in the repository's folder)
#     check WHAT COMMAND...    counts a check, and a difference where the command fails
#     differs WHAT             counts a difference
#     checked                  says how many there were; fails if a difference was among them

checks=0 differences=0

# shellcheck disable=SC2154 # the caller's
differs() {
    echo "$subject: differs: $*"
    differences=$((differences + 1))
}

check() {
    what=$1
    shift
    checks=$((checks + 1))
    "$@" || differs "$what"
}

checked() {
    echo "$subject: $checks checks, $differences differences"
    [ "$differences" = 0 ]
}
