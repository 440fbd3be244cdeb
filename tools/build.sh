# shellcheck shell=sh
# shellcheck disable=SC2154 # top, the folder of the source tree, is the caller's
#
# Usage: . "$top/tools/build.sh"
#     build NAME...    proves crates and builds what they are: target/bin/NAME, or target/staticlib/libNAME.a
#     build_lock       waits until nothing else is proved or built in this tree, and keeps others waiting
#     build_unlock     ends that
#     build_can_write  fails, and says what stands in the way, where the tree cannot be written
#     build_needs_rt   fails, and says so, where the command rt is missing
#
# What bin/shadepass, make, the tests and the tools build by. What is built already, from just these sources, is left
# alone, and then neither rt nor the right to write is needed. Otherwise the tree has to be writable: where rt cannot
# write, it says "proved" and only then that nothing could be built.
#
# rt works in crates/NAME/out; what hosts and users take is a copy of what it made there.

# Whether it can be read or not: what is built is built.
build_say() {
    printf '%s: %s\n' "${0##*/}" "$*" >&2 || true
}

build_needs_rt() {
    command -v rt >/dev/null && return
    build_say "nothing was checked: the command rt is missing; install the Rattle kit, its bin folder on the PATH"
    return 2
}

# The crates of the tree that NAME is made of, in the order of crates.txt; itself is the last.
build_crates() {
    awk -v name="$1" '
        { sub(/#.*/, "") }
        /:/ {
            split(substr($0, 1, index($0, ":") - 1), head, " ")
            line[++lines] = head[1]
            words[head[1]] = substr($0, index($0, ":") + 1)
        }
        END {
            needed[name] = 1
            for (at = lines; at > 0; at--)
                if (line[at] in needed) {
                    count = split(words[line[at]], word, " ")
                    for (k = 1; k <= count; k++) needed[word[k]] = 1
                }
            for (at = 1; at <= lines; at++) if (line[at] in needed) print line[at]
        }' "$top/crates.txt"
}

build_file() {
    if [ -f "$top/crates/$1/src/main.rt" ]; then
        echo "$top/target/bin/$1"
    else
        echo "$top/target/staticlib/lib$1.a"
    fi
}

# what rt makes of it
build_made() {
    echo "$top/crates/$1/out/$(basename "$(build_file "$1")")"
}

# A sum of all that NAME is made of: a file that is changed, added or taken away changes it, whatever its time says.
build_sources() (
    cd "$top" || exit
    {
        cat crates.txt
        build_crates "$1" | sed 's|^|crates/|' |
            xargs sh -c 'find -L "$@" -regex "crates/[^/]*/\(out\|must-fail[^/]*\)" -prune -o \
                -type f -exec sha256sum {} +' find 2>/dev/null |
            LC_ALL=C sort
    } | sha256sum
)

# What target/built/NAME has once NAME is built: the sources, and what was made of them.
build_record() {
    echo "$1" && sha256sum <"$2"
}

build_is_done() (
    file=$(build_file "$1")
    case $file in *.a) ;; *) [ -x "$file" ] || exit ;; esac
    [ -f "$file" ] && [ -f "$top/target/built/$1" ] &&
        build_record "$(build_sources "$1")" "$file" | cmp -s - "$top/target/built/$1"
)

# The places that a build writes to and this user may not. target/ may also be a link to a folder.
build_barred() (
    for place in "$top" "$top/.lock" "$top/crates"/*/; do
        [ ! -e "$place" ] || [ -w "$place" ] || echo "${place%/}"
    done
    for place in "$top/target" "$top/crates"/*/out; do
        if [ -d "$place" ]; then
            find "$place/" ! -writable 2>/dev/null
        elif [ -e "$place" ] || [ -L "$place" ]; then
            echo "$place"
        fi
    done
)

build_can_write() (
    barred=$(build_barred | head -n 1)
    [ -z "$barred" ] || {
        build_say "nothing was checked: the sources are to be checked and built first, and $barred cannot be written"
        exit 2
    }
)

# On a file outside target/, which --clean removes. rt inherits it, and ends its provers where it is ended itself: so it
# holds for as long as one is at work.
build_lock() {
    exec 9>>"$top/.lock" || return
    build_held=0
    flock -n 9 || build_held=$?
    [ "$build_held" != 1 ] || build_say "another build is at work in this folder: waiting until it has ended"
    # 1 is that the time is over
    while [ "$build_held" = 1 ]; do
        build_held=0
        flock -w 15 9 || build_held=$?
        [ "$build_held" != 1 ] || build_say "still waiting for the other build"
    done
    [ "$build_held" = 0 ] || build_say "nothing was checked: flock cannot lock $top/.lock"
    return "$build_held"
}

build_unlock() {
    exec 9>&-
}

# What follows keeps to variables that start with build_: traps hold in the caller's own shell alone.

# Ends rt with all that it started, takes away what it leaves, and ends this shell by the same signal.
build_stop() {
    kill -s TERM -- "-$build_rt" 2>/dev/null
    wait "$build_rt" 2>/dev/null
    rm -rf "$build_room"
    trap - "$1"
    kill -s "$1" $$
}

# Says how many crates are proved whenever there are more, and what is being proved if 15 seconds went by. rt says which
# crate it comes to, and those before that one are proved.
build_progress() {
    build_now=$(date +%s)
    build_busy=$(sed -n 's/^rt: chose --jobs [0-9]* for //p' "$build_log" | tail -n 1)
    build_count=$(echo "$build_needed" | tr ' ' '\n' | awk -v busy="$build_busy" '$0 == busy { print NR - 1 }')
    if [ "${build_count:-0}" -gt "$build_told" ]; then
        build_told=$build_count build_spoke=$build_now
        build_say "  $build_told of $build_of crates proved"
    elif [ $((build_now - build_spoke)) -ge 15 ]; then
        build_spoke=$build_now
        build_say "  still at work on ${build_busy:-$build_name}: $((build_now - build_began)) s since the start"
    fi
}

# build_watch NAME COMMAND...    runs it in that crate's folder, in a session of its own, which one signal ends, and with
# a temporary folder of its own, which can be taken away then. It says how far it is.
build_watch() {
    build_room=$(mktemp -d) || return
    (cd "$top/crates/$1" && shift && TMPDIR=$build_room exec setsid "$@") >>"$build_log" 2>&1 </dev/null &
    build_rt=$!
    for build_signal in HUP INT QUIT PIPE TERM; do
        # shellcheck disable=SC2064 # this signal
        trap "build_stop $build_signal" "$build_signal"
    done
    while kill -0 "$build_rt" 2>/dev/null; do
        build_progress
        sleep 0.5
    done
    trap - HUP INT QUIT PIPE TERM
    rm -rf "$build_room"
    wait "$build_rt"
}

# A program is also run, on no ticket: rt has no other command that builds one.
build_by_rt() {
    case $(build_file "$1") in
    *.a) build_watch "$1" rt lib ;;
    *) build_watch "$1" rt run ;;
    esac
}

# Whether rt has left its word: what it makes of a crate that is proved, and its stamp on every library below.
build_is_said() (
    [ -f "$(build_made "$1")" ] || exit
    for crate in $build_needed; do
        [ "$crate" = "$1" ] || [ -s "$top/crates/$crate/out/rlib/stamp" ] || exit
    done
)

# Under the lock. The sum is taken before, so that a source which is changed meanwhile is noticed the next time. What is
# there of an earlier build goes, and so does rt's stamp on it: rt makes nothing anew that its stamp says is there.
build_make() {
    build_needed=$(build_crates "$1" | paste -s -d ' ' -)
    build_sum=$(build_sources "$1")
    build_log=$top/target/built/$1.log
    build_began=$(date +%s)
    build_spoke=$build_began build_told=0
    build_of=$(echo "$build_needed" | wc -w)
    mkdir -p "$top/target/built" "$top/target/bin" "$top/target/staticlib"
    rm -f "$top/target/built/$1" "$(build_file "$1")" "$(build_made "$1")" "$(build_made "$1").stamp"
    : >"$build_log"
    build_say "proving $1, $build_of crates, and building it: the first time some five minutes"
    if ! build_by_rt "$1" || ! build_is_said "$1" || ! cp "$(build_made "$1")" "$(build_file "$1")"; then
        cat "$build_log" >&2
        build_say "$1 could not be checked and built; all that rt said is above"
        return 2
    fi
    build_say "  $build_of of $build_of crates proved"
    build_record "$build_sum" "$(build_file "$1")" >"$top/target/built/$1"
    build_say "$1 is built ($(($(date +%s) - build_began)) s)"
}

# Whoever had the lock before may have built it.
build_one() {
    if [ ! -d "$top/crates/$1" ]; then
        build_say "there is no crate $1"
        return 2
    fi
    if [ ! -f "$top/crates/$1/src/main.rt" ] && ! grep -q "^$1 [^:]*staticlib" "$top/crates.txt"; then
        build_say "$1 is neither a program nor a library for C"
        return 2
    fi
    build_is_done "$1" && return
    build_can_write && build_needs_rt && build_lock || return
    build_is_done "$1" || build_make "$1"
    set -- $?
    build_unlock
    return "$1"
}

build() {
    for build_name in "$@"; do
        build_one "$build_name" || return
    done
}
