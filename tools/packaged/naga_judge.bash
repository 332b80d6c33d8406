# Completion of naga_judge in bash.
_naga_judge() {
    local word=${COMP_WORDS[COMP_CWORD]}
    COMPREPLY=()
    if [[ $word == -* ]]; then
        COMPREPLY=($(compgen -W '--explain --json --json-lines --quiet --help --version' -- "$word"))
    fi
}
complete -o default -F _naga_judge naga_judge
