#!/bin/sh
# Looks that the version, the topmost of CHANGELOG.md, is that of the header, of the Python package and of the Rust crates. (That of the program
# is looked at by command-line.sh.)
# Usage: versions.sh
set -eu
cd "$(dirname "$0")/.."
version=$(sed -n 's/^## //p' CHANGELOG.md | head -n 1)
passed=0
failed=0

# The version is the one word that the expression finds in the file.
look() {
    if [ "$(sed -n "$2" "$1" | head -n 1)" = "$version" ]; then
        passed=$((passed + 1))
    else
        failed=$((failed + 1))
        echo "versions: $1 has another version than CHANGELOG.md, $version" >&2
    fi
}

look embedding/dehokuna.h 's/^#define DEHOKUNA_VERSION "\(.*\)"$/\1/p'
look embedding/python/dehokuna/_library.py 's/^VERSION = "\(.*\)"$/\1/p'
look embedding/rust/dehokuna/Cargo.toml 's/^version = "\(.*\)"$/\1/p'
look embedding/rust/dehokuna/Cargo.toml 's/^dehokuna-sys = .* version = "\(.*\)" }$/\1/p'
look embedding/rust/dehokuna-sys/Cargo.toml 's/^version = "\(.*\)"$/\1/p'
echo "$passed passed, $failed failed"
[ "$failed" -eq 0 ]
