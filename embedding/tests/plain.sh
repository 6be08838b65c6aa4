#!/bin/sh
# Calls the library from C as a plain build does: each call, in threads under one lock, and in threads that read at the same time.
# Usage: plain.sh LIBRARY FOLDER, an archive, and a folder for what is built
set -eu
cd "$(dirname "$0")"
library=$1
built=$2
flags='-std=c11 -O1 -g -Wall -Wextra -Wshadow -Werror'
mkdir -p "$built"
for name in calls threaded readers; do
    # shellcheck disable=SC2086
    case $name in
    calls) ${CC:-cc} $flags -I.. calls.c "$library" -Wl,--wrap=malloc,--wrap=realloc,--wrap=free -o "$built/calls" ;;
    *) ${CC:-cc} $flags -pthread -I.. $name.c "$library" -o "$built/$name" ;;
    esac
    printf '%s: ' $name
    timeout 60 "$built/$name"
done
