#!/bin/sh
# Runs each block of the README as a reader would: commands behind `$ ` in their order, each of which prints the lines below it. The block of
# C is the file that these commands build. Also the example of the help and of the manual page; and looks that the lines of Rattle which
# docs/EMBEDDING.md shows are those of a test, one after another.
# What wants a C compiler, the built library, FUSE or Python is skipped, and told, where that is missing.
# Usage: readme.sh PROGRAM
set -eu
program=$(cd "$(dirname "$1")" && pwd)/$(basename "$1")
cd "$(dirname "$0")/.."
top=$PWD
work=$(mktemp -d)
here=$work/here
trap 'fusermount3 -q -u "$here/mount" 2> /dev/null || true; rm -rf "$work"' EXIT
passed=0
skipped=0
failed=0

# judge WHAT SHOWN SEEN: the two files are equal, and not empty. A pid is another one each time.
judge() {
    sed -E -i 's/^(FCNTL|FLOCK) [0-9]+ /\1 PID /' "$2" "$3"
    if [ -s "$2" ] && cmp -s "$2" "$3"; then
        passed=$((passed + 1))
    else
        failed=$((failed + 1))
        echo "$1: something else is shown:" >&2
        diff "$2" "$3" >&2 || true
    fi
}

# What a reader has: the programs, what pkg-config finds, and the folder of the README.
mkdir -p "$work/bin" "$work/prefix/lib/pkgconfig" "$work/prefix/include" "$here"
cp "$program" "$work/bin/lockreplay"
for tool in locktest lockreplay-trace; do ln -s "$top/conformance/$tool" "$work/bin/$tool"; done
ln -s "$top/samples" "$here/samples"
[ ! -x embedding/out/lockfs ] || ln -s "$top/embedding/out/lockfs" "$work/bin/lockfs"
[ ! -f embedding/out/libdehokuna.so.1 ] || for name in libdehokuna.so.1 libdehokuna.so; do
    ln -s "$top/embedding/out/libdehokuna.so.1" "$work/prefix/lib/$name"
done
ln -s "$top/embedding/dehokuna.h" "$work/prefix/include/dehokuna.h"
sed "s,@PREFIX@,$work/prefix,; s,@LIBRARIES@,lib,; s,@VERSION@,0," embedding/dehokuna.pc.in > "$work/prefix/lib/pkgconfig/dehokuna.pc"
export PATH="$work/bin:$PATH" LOCKREPLAY="$work/bin/lockreplay" PYTHONDONTWRITEBYTECODE=1
export PKG_CONFIG_PATH="$work/prefix/lib/pkgconfig" LD_LIBRARY_PATH="$work/prefix/lib${LD_LIBRARY_PATH:+:$LD_LIBRARY_PATH}"

has() { command -v "$1" > /dev/null 2>&1; }

# Tells what the command wants and the machine lacks, if anything.
lacks() {
    case $1 in
    cc\ *)
        if ! has cc; then echo 'no C compiler is there'
        elif ! has pkg-config; then echo 'pkg-config is missing'
        elif [ ! -e "$work/prefix/lib/libdehokuna.so" ]; then echo 'make library built nothing yet'; fi ;;
    *mount*)
        if [ ! -x "$work/bin/lockfs" ]; then echo 'make lockfs built nothing yet'
        elif [ ! -w /dev/fuse ] || ! has fusermount3; then echo 'there is no FUSE'
        elif ! has flock; then echo 'flock(1) is missing'; fi ;;
    lockreplay-trace\ *)
        has python3 || echo 'Python 3 is missing' ;;
    locktest\ *)
        if ! has python3; then echo 'Python 3 is missing'
        elif [ ! -w /dev/shm ]; then echo 'there is no /dev/shm'; fi ;;
    esac
}

# The blocks, a file for each command with the lines below it; the block of C is server.c. Any other block is refused.
awk -v work="$work" -v here="$here" '
    /^$/ { blank = inside; next }
    !/^    / { inside = 0; next }
    { line = substr($0, 5) }
    !inside && line ~ /^#include/ { inside = 1; blank = 0; out = here "/server.c" }
    line ~ /^\$ / {
        inside = 1; blank = 0; out = sprintf("%s/%03d.shown", work, ++count)
        print substr(line, 3) > sprintf("%s/%03d.command", work, count); printf "" > out; next
    }
    !inside { print line > (work "/stray"); next }
    { if (blank) print "" > out; blank = 0; print line > out }' README.md
if [ -e "$work/stray" ]; then
    failed=$((failed + 1))
    echo 'a block of the README is neither the C nor a command with its output:' >&2
    cat "$work/stray" >&2
fi
for file in "$work"/*.command; do
    command=$(cat "$file")
    lack=$(lacks "$command")
    if [ -n "$lack" ]; then
        skipped=$((skipped + 1))
        echo "readme: SKIPPED: $lack, so this was not run: $command"
        continue
    fi
    status=0
    (cd "$here" && sh -c "$command") < /dev/null > "$work/seen" || status=$?
    if [ -s "${file%.command}.shown" ]; then
        judge "$command" "${file%.command}.shown" "$work/seen"
    elif [ "$status" -eq 0 ] && [ ! -s "$work/seen" ]; then
        passed=$((passed + 1))
    else
        failed=$((failed + 1))
        echo "$command: status $status, and it prints:" >&2
        cat "$work/seen" >&2
    fi
done

# The example of the help, up to a blank line, and that of the manual page, up to the end of its display.
lockreplay --help 2> "$work/help" || true
sed -n '/^  \$ /,/^$/s/^  //p' "$work/help" > "$work/help-example"
sed -n '/^\.Sh EXAMPLES/,/^\.Ed/p' docs/lockreplay.1 | sed -n '/^\$ /,/^\.Ed/{ /^\.Ed/d; s/\\e/\\/g; p; }' > "$work/manual-example"
for page in help manual; do
    tail -n +2 "$work/$page-example" > "$work/shown"
    sed -n '1s/^\$ //p' "$work/$page-example" > "$work/command"
    sh "$work/command" > "$work/seen" < /dev/null || true
    judge "the example of the $page" "$work/shown" "$work/seen"
done

# The block that begins with the test's first line, against as many lines of the test.
awk '/^    let mut server = LockServer::new\($/ { on = 1 } on && !/^    / { exit } on' docs/EMBEDDING.md > "$work/shown"
lines=$(wc -l < "$work/shown")
awk -v lines="$lines" '/^    let mut server = / { on = 1 } on && count++ < lines' crates/lock_server_tests/src/tests/example.rt > "$work/seen"
judge 'the lines of Rattle' "$work/shown" "$work/seen"

echo "$passed passed, $skipped skipped, $failed failed"
[ "$failed" -eq 0 ] && [ "$passed" -gt 4 ]
