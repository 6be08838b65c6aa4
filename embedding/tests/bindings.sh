#!/bin/sh
# Tries what stands on an installation of the library: C programs on the shared library and on the static one, the messages of 9P2000.L, the
# Python package and its wheel, and the Rust crates, those where their tools are there; prints 'N passed, M failed', of these.
# Usage: bindings.sh FOLDER INSTALLED, a folder for what is built, and the PREFIX of an installation
set -u
top=$(cd "$(dirname "$0")/../.." && pwd)
built=$(mkdir -p "$1" && cd "$1" && pwd)
installed=$(cd "$2" && pwd)
passed=0
failed=0
flags="-std=c11 -O1 -g -Wall -Wextra -Wshadow -Werror -pthread -I$installed/include"
cd "$top/embedding" || exit 2

# Counts whether the command succeeds, and says so by the name $1; what it prints is shown where it doesn't.
try() {
    name=$1
    shift
    if "$@" > "$built/said" 2>&1; then
        passed=$((passed + 1))
        echo "ok     $name"
    else
        failed=$((failed + 1))
        echo "FAILED $name"
        cat "$built/said"
    fi
}

# Whether the command is there.
has() {
    command -v "$1" > /dev/null && return
    echo "skipped: $1 is not there"
    return 1
}

on_the_shared_library() {
    # shellcheck disable=SC2086
    ${CC:-cc} $flags "tests/$1.c" -L"$installed/lib" -ldehokuna -o "$built/$1-shared" && readelf -d "$built/$1-shared" | grep -q 'libdehokuna\.so\.1' \
        && LD_LIBRARY_PATH=$installed/lib timeout 60 "$built/$1-shared"
}

on_the_static_library() {
    # shellcheck disable=SC2086
    ${CC:-cc} $flags "tests/$1.c" "$installed/lib/libdehokuna.a" -o "$built/$1-static" && timeout 60 "$built/$1-static"
}

by_pkg_config() {
    words=$(PKG_CONFIG_PATH=$installed/lib/pkgconfig pkg-config --cflags --libs dehokuna) \
        && [ "$(PKG_CONFIG_PATH=$installed/lib/pkgconfig pkg-config --modversion dehokuna)" = "$(sed -n 's/^## //p' ../CHANGELOG.md | head -n 1)" ] || return 1
    # shellcheck disable=SC2086
    ${CC:-cc} -std=c11 -pthread tests/threaded.c $words -o "$built/threaded-installed" && LD_LIBRARY_PATH=$installed/lib timeout 60 "$built/threaded-installed"
}

# The distribution's Python, which has the distribution's venv, where it is there.
python() {
    if [ -x /usr/bin/python3 ]; then /usr/bin/python3 "$@"; else python3 "$@"; fi
}

in_python() {
    (cd python && DEHOKUNA_LIBRARY=$installed/lib/libdehokuna.so.1 PYTHONDONTWRITEBYTECODE=1 timeout 100 sh -c '"$@"' sh "$(python -c 'import sys; print(sys.executable)')" -m unittest tests.test_dehokuna)
}

# Whether the wheel is installed without network, finds its own library, and has the same tests pass.
as_a_wheel() {
    rm -rf "$built/venv" "$built/wheel-tests"
    "$top/tools/wheel" && python -m venv "$built/venv" && "$built/venv/bin/pip" install -q --no-index --no-deps "$top"/dist/dehokuna-*-py3-none-linux_x86_64.whl \
        && mkdir "$built/wheel-tests" && cp python/tests/test_dehokuna.py "$built/wheel-tests" \
        && (cd "$built/wheel-tests" && env -u DEHOKUNA_LIBRARY timeout 100 "$built/venv/bin/python" -m unittest test_dehokuna)
}

# The distribution's Rust, where it is there: the crates are to be built by it.
with_cargo() {
    (
        cd rust || exit 1
        export CARGO_TARGET_DIR="$built/rust" PKG_CONFIG_PATH="$installed/lib/pkgconfig" LD_LIBRARY_PATH="$installed/lib" RUSTFLAGS='-D warnings'
        if [ -x /usr/bin/cargo ]; then PATH=/usr/bin:$PATH && unset RUSTUP_TOOLCHAIN; fi
        timeout 600 cargo "$@" --offline
    )
}

rust_shared() {
    DEHOKUNA_STATIC=0 with_cargo test -q
}

rust_static() {
    DEHOKUNA_STATIC=1 with_cargo test -q && DEHOKUNA_STATIC=1 with_cargo run -q --release --example threads
}

# Whether each function of the header stands in its manual page and in both bindings.
each_is_bound() {
    for called in $(sed -n 's/^[a-z].*[ *]dehokuna_\([a-z_]*\)(.*/\1/p' "$installed/include/dehokuna.h"); do
        for place in "../docs/dehokuna.3 dehokuna_$called" "python/dehokuna/_library.py \"$called\"" "rust/dehokuna-sys/src/lib.rs dehokuna_$called" "rust/dehokuna/src dehokuna_$called"; do
            grep -rqw -- "${place#* }" "${place%% *}" || { echo "${place%% *} lacks dehokuna_$called"; return 1; }
        done
    done
}

try 'each function is bound' each_is_bound
for program in threaded hidden ninep; do
    try "$program on the shared library" on_the_shared_library "$program"
    try "$program on the static library" on_the_static_library "$program"
done
if has pkg-config; then try 'by pkg-config' by_pkg_config; fi
if has python3; then try 'in Python' in_python; fi
if has python3 && has strip && python -c 'import ensurepip' 2> /dev/null; then try 'as a wheel, in a venv' as_a_wheel; fi
if has cargo; then
    try 'in Rust, on the shared library' rust_shared
    try 'in Rust, on the static library, and its threads' rust_static
fi
echo "$passed passed, $failed failed"
[ "$failed" -eq 0 ]
