#compdef lockreplay lockreplay-trace lockfs locktest locktorture
# Completion in zsh: the options are those that the program's own help names.
local -a options
if [[ $PREFIX == -* ]]; then
    options=(${(fu)"$($words[1] --help 2>&1 < /dev/null | grep -oE -- '(^|[^-a-z])--[a-z][a-z-]*' | grep -oE -- '--.*')"})
    compadd -a options
else
    _files
fi
