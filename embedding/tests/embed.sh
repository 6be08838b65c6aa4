#!/bin/sh
# Calls the library from C plainly, under valgrind and with the sanitizers, from threads, from C by what `make install` installs, and from
# Rust where rustc is there; prints 'N passed, M failed', of these programs.
# Usage: embed.sh LIBRARY FOLDER INSTALLED, an archive, a folder for what is built, and the PREFIX of an installation
set -u
cd "$(dirname "$0")" || exit 2
library=$1
built=$2
installed=$3
passed=0
failed=0
flags='-std=c11 -O1 -g -Wall -Wextra -Wshadow -Werror'
wraps='-Wl,--wrap=malloc,--wrap=realloc,--wrap=free'

# Counts whether the command succeeds, and says so by the name $1.
try() {
    name=$1
    shift
    if "$@"; then
        passed=$((passed + 1))
        echo "ok     $name"
    else
        failed=$((failed + 1))
        echo "FAILED $name"
    fi
}

plainly() {
    sh plain.sh "$library" "$built"
}

under_valgrind() {
    timeout 300 valgrind -q --error-exitcode=9 --leak-check=full --show-leak-kinds=all "$built/calls"
}

sanitized() {
    # shellcheck disable=SC2086
    ${CC:-cc} $flags -fsanitize=address,undefined -fno-sanitize-recover=all -I.. calls.c "$library" $wraps -o "$built/calls-sanitized" \
        && timeout 300 "$built/calls-sanitized"
}

as_installed() {
    words=$(PKG_CONFIG_PATH=$installed/lib/pkgconfig pkg-config --cflags --libs-only-L dehokuna) || return 1
    # shellcheck disable=SC2086
    ${CC:-cc} $flags calls.c $words -l:libdehokuna.a $wraps -o "$built/calls-installed" && timeout 60 "$built/calls-installed"
}

as_cxx() {
    ${CXX:-c++} -fsyntax-only -Wall -Werror -x c++ ../dehokuna.h
}

from_rust() {
    rustc --edition 2021 -O -D warnings -L "$(dirname "$library")" -l static=dehokuna calls.rs -o "$built/calls-rust" && timeout 60 "$built/calls-rust"
}

mkdir -p "$built"
try 'from C, and in threads' plainly
if command -v valgrind > /dev/null; then try 'under valgrind' under_valgrind; else echo 'skipped: valgrind is not there'; fi
try 'with the sanitizers' sanitized
if command -v pkg-config > /dev/null; then try 'as installed' as_installed; else echo 'skipped: pkg-config is not there'; fi
if command -v "${CXX:-c++}" > /dev/null; then try 'the header in C++' as_cxx; else echo 'skipped: no C++ compiler is there'; fi
if command -v rustc > /dev/null; then try 'from Rust' from_rust; else echo 'skipped: rustc is not there'; fi
echo "$passed passed, $failed failed"
[ "$failed" -eq 0 ]
