#!/bin/sh
# Looks that each file that the documents name is there, and each name that stands behind one in brackets in that file: as
# `lock_manager/specs/Settling.antt` (`Settles`). Paths are below crates/, or below the top. That each name of the library for C is in its
# header, or in the crate that links it. And that the calls, clauses, definitions and edits of docs/PROOFS.md are there.
# Usage: signposts.sh [FILE..], the documents, by default the README, all of docs/ and of the crates
set -eu
cd "$(dirname "$0")/.."
[ "$#" -gt 0 ] || set -- README.md docs/*.md crates/*/README.md
path='[A-Za-z0-9_.-]+(/[A-Za-z0-9_.-]+)+\.(antt|rt|edit|lock|out|sh|md|1)'
passed=0
failed=0
rows=$(mktemp)
trap 'rm -f "$rows"' EXIT

# Counts whether the command succeeds, and says $1 where it doesn't.
look() {
    said=$1
    shift
    if "$@"; then
        passed=$((passed + 1))
    else
        echo "signposts: $said" >&2
        failed=$((failed + 1))
    fi
}

# Where the file of path $1 stands.
file_of() {
    if [ -e "crates/$1" ]; then echo "crates/$1"; else echo "$1"; fi
}

# Whether there is a file of path $1: below crates/, the top, docs/, or a crate's src/.
is_there() {
    for place in crates . docs crates/*/src; do
        if [ -e "$place/$1" ]; then return 0; fi
    done
    return 1
}

for name in $(grep -ohE "$path" "$@" | sed 's,^\(\.\./\)*,,' | sort -u); do
    look "$name isn't there" is_there "$name"
done
for sign in $(cat "$@" | tr '\n' ' ' | grep -oE "\`$path\` \(\`[^)]*\`\)" | tr -d ' ' | sort -u); do
    name=$(echo "$sign" | cut -d'`' -f2)
    for word in $(echo "$sign" | sed 's/^[^(]*//' | grep -oE '`[A-Za-z_]+`' | tr -d '`'); do
        look "$name has no $word" grep -qw "$word" "$(file_of "$name")"
    done
done

for name in $(grep -ohE '`(dehokuna|DEHOKUNA)_[A-Za-z_]+`' "$@" | tr -d '`' | sort -u); do
    look "embedding/ has no $name" grep -rqw "$name" embedding/dehokuna.h embedding/rust/dehokuna-sys
done

# Of docs/PROOFS.md: the crates of each heading, with commas between them, with a kind and a name: of each row its calls and clauses, its
# definitions and its edits.
rows() {
    awk -F'|' '
        function each(cell, kind, form) {
            while (match(cell, /`[^`]*`/)) {
                word = substr(cell, RSTART + 1, RLENGTH - 2)
                if (word ~ form) { print crate, kind, word }
                cell = substr(cell, RSTART + RLENGTH)
            }
        }
        /^## `/ { crate = $0; gsub(/[^a-z_,]/, "", crate) }
        NF == 5 { each($3, "call", "."); each($4, "definition", "."); each($5, "edit", ".") }' docs/PROOFS.md | sort -u
}

# Whether one of the crates $2, with commas between them, passes the test $1 with the name $3.
has_one() {
    for one in $(echo "$2" | tr , ' '); do
        if "$1" "$one" "$3"; then return 0; fi
    done
    return 1
}

# Whether the crate $1 has the call or the clause $2: a function, a type, a ghost field, a line `ensures`, or a part of the headline.
has_call() {
    grep -rqE "\\b(fn|struct|trait|ensures|ensures\\*|requires|ghost) ${2##*::}\\b" "crates/$1/src" \
        || grep -qE "^ +pub ${2##*::} :" "crates/$1/specs/Headline.antt" 2> /dev/null
}

# Whether the crate $1 has the definition $2, FILE or FILE.NAME, of another crate as CRATE/FILE.NAME: the file gives the name a type.
has_definition() {
    case $2 in */*) set -- "${2%%/*}" "${2#*/}" ;; esac
    case $2 in
        *.*) grep -qE "^ *((abbrev|pub|record|data|unfoldable) )*${2#*.} .*:" "crates/$1/specs/${2%%.*}.antt" 2> /dev/null ;;
        *) [ -e "crates/$1/specs/$2.antt" ] ;;
    esac
}

# Whether the crate $1 has the edit $2.
has_edit() {
    [ -e "crates/$1/must-fail/$2.edit" ] || [ -e "crates/$1/further-edits/$2.edit" ]
}

rows > "$rows"
while read -r crates kind name; do
    case $kind in
        call) look "$crates has no call or clause $name" has_one has_call "$crates" "$name" ;;
        definition) look "$crates has no definition $name" has_one has_definition "$crates" "$name" ;;
        edit) look "$crates has no edit $name" has_one has_edit "$crates" "$name" ;;
    esac
done < "$rows"
echo "signposts: $passed passed, $failed failed"
[ "$failed" -eq 0 ] && [ "$passed" -gt 0 ]
