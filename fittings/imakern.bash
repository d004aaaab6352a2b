# Completion for bash: source this file, for example in ~/.bashrc. It completes the command words of
# imakern and ./imakern, and the names of files after < and >.

_imakern() {
    local word=${COMP_WORDS[COMP_CWORD]} before=${COMP_WORDS[COMP_CWORD - 1]}
    COMPREPLY=()
    if [[ $word == *[\<\>] ]]; then
        before=$word word=
    fi
    if [[ $before == *[\<\>] ]]; then
        compopt -o filenames 2>/dev/null # fails outside of a completion, as in a test
        mapfile -t COMPREPLY < <(compgen -f -- "$word")
    elif ((COMP_CWORD == 1)); then
        local commands='list run policy label gen buffers carry audit loads'
        mapfile -t COMPREPLY < <(compgen -W "$commands" -- "$word")
    fi
}
complete -F _imakern imakern
