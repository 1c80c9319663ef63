# Completion in bash for routes, fib_kernel and the recipes: first the modes that `--help` shows, then files.
_jolmidda() {
    local name=${1##*/} word=${COMP_WORDS[COMP_CWORD]}
    if [ "$COMP_CWORD" -eq 1 ]; then
        local modes
        modes=$("$1" --help 2>&1 | grep -oE "(^|[ /])${name} [a-z|]+" | sed 's/.* //' | tr '|' '\n')
        mapfile -t COMPREPLY < <(compgen -W "$modes --help" -- "$word")
    else
        mapfile -t COMPREPLY < <(compgen -f -- "$word")
    fi
}
mapfile -t _jolmidda_recipes < <(compgen -c jolmidda-)
complete -o filenames -F _jolmidda routes fib_kernel "${_jolmidda_recipes[@]}"
unset _jolmidda_recipes
