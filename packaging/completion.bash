# Completion in bash for the programs of Dehokuna: the options are those that the program's own help names.
_dehokuna() {
    local word=${COMP_WORDS[COMP_CWORD]}
    [[ $word == -* ]] || return 0
    mapfile -t COMPREPLY < <(compgen -W "$("$1" --help 2>&1 < /dev/null | grep -oE -- '(^|[^-a-z])--[a-z][a-z-]*' | grep -oE -- '--.*' | sort -u)" -- "$word")
}
complete -o default -F _dehokuna lockreplay lockreplay-trace lockfs locktest locktorture
