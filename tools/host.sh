# shellcheck shell=sh
#
# Usage: . tools/host.sh    (in the repository's folder)
#     host_library NAME...                    proves and builds libraries, target/staticlib/libNAME.a, and programs
#     host_build PROGRAM SOURCE.c WORD...     compiles SOURCE.c and links it with such archives; the words may also be
#                                             flags -I, -L and -l, as pkg-config gives them
#     host_run PROGRAM [WORD...]              runs it
#     host_accepts LANGUAGE STANDARD SOURCE   compiles a source as that language and keeps nothing
#     host_rust PROGRAM SOURCE.rs             compiles a program for this machine itself
#
# What the tests, bench/ and tools/ share. The archives are x86-64 code, as the kit is, and the machine's own cc serves.
# HOST_BY_KIT=1 takes the kit's clang, its ld.lld and its C library instead.

. tools/build.sh

host_is_native() {
    [ "${HOST_BY_KIT:-0}" = 0 ]
}

# the kit's folder of tools; its C library lies in lib
host_toolchain() {
    build_needs_rt || return
    echo "$(dirname "$(dirname "$(readlink -f "$(command -v rt)")")")/toolchain"
}

# in a shell of its own, since this may be sourced at a prompt
host_library() {
    tools/build "$@"
}

# host_needs COMMAND PACKAGE
host_needs() {
    command -v "$1" >/dev/null && return
    build_say "the command $1 is missing: install Debian's package $2"
    return 2
}

# The next ones run in a shell of their own, so that they change no variable of the script that calls them.

# The kit's clang. It has no headers of its own, so it takes this machine's, those of cc and of the C library.
host_clang() (
    exec "$(host_toolchain)/bin/clang" --target=x86_64-linux-gnu -isystem "$(cc -print-file-name=include)" \
        -isystem /usr/include/x86_64-linux-gnu "$@"
)

host_build() (
    program=$1 source=$2
    shift 2
    host_needs cc gcc || exit
    include='' link='' math=''
    for word in "$@"; do
        case $word in
        -I*) include="$include $word" ;;
        -lm) math=yes ;;
        *) link="$link $word" ;;
        esac
    done
    # shellcheck disable=SC2086 # one word for each folder, archive or flag
    set -- -O2 -Wall -Wextra -Werror ${include:--Iinclude}
    if host_is_native; then
        # shellcheck disable=SC2086
        exec cc "$@" -o "$program" "$source" $link ${math:+-lm}
    fi
    own=$(host_toolchain) || exit
    lib=$own/lib
    # shellcheck disable=SC2086
    host_clang "$@" -fPIC -c "$source" -o "$program.o" &&
        "$own/bin/ld.lld" -pie -o "$program" --dynamic-linker "$lib/ld-linux-x86-64.so.2" "$lib/Scrt1.o" "$lib/crti.o" \
            "$program.o" $link ${math:+"$lib/libm.so.6"} "$lib/libc.so.6" "$lib/libc_nonshared.a" "$lib/crtn.o"
)

host_run() (
    if host_is_native; then
        exec "$@"
    fi
    lib=$(host_toolchain)/lib || exit
    # by the kit's loader: the program gets the C library that it was linked with
    exec "$lib/ld-linux-x86-64.so.2" --library-path "$lib" "$@"
)

# By the kit's clang, which is C and C++ in one; a machine's cc need not be.
host_accepts() {
    host_clang -x "$1" -std="$2" -pedantic -Wall -Wextra -Werror -Iinclude -fsyntax-only "$3"
}

# A number that does not fit stops the program.
host_rust() {
    host_needs rustc rustc || return
    rustc --edition 2021 -O -C overflow-checks -o "$1" "$2"
}
