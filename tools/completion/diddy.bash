# Completion for bash: source this file. Of diddy's words, and of what tools/sweep takes.
_diddy() {
    if [ "$COMP_CWORD" -eq 1 ]; then
        mapfile -t COMPREPLY < <(compgen -W "run check sample --version" -- "${COMP_WORDS[1]}")
    elif [[ ${COMP_WORDS[COMP_CWORD - 1]} == "<" ]]; then
        mapfile -t COMPREPLY < <(compgen -f -- "${COMP_WORDS[COMP_CWORD]}")
    fi
}
_diddy_sweep() {
    local here=${COMP_WORDS[COMP_CWORD]}
    if [ "$COMP_CWORD" -eq 1 ]; then
        mapfile -t COMPREPLY < <(compgen -W "one table" -- "$here"; compgen -d -- "$here")
    else
        mapfile -t COMPREPLY < <(compgen -f -- "$here")
    fi
}
complete -o default -F _diddy diddy ./diddy
complete -o default -o filenames -F _diddy_sweep sweep tools/sweep
