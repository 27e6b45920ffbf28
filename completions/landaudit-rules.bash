# Completion of landaudit-rules for bash.

_landaudit_rules() {
    local cur=${COMP_WORDS[COMP_CWORD]}
    # With an empty answer bash completes names of files; - is standard input.
    COMPREPLY=()
    if [[ ${COMP_WORDS[COMP_CWORD - 1]} == --calls ]]; then
        mapfile -t COMPREPLY < <(compgen -W '1 2 3 4 5' -- "$cur")
    elif [[ $cur == -* ]]; then
        mapfile -t COMPREPLY < <(compgen -W '--calls --rights -h --help -V --version -' -- "$cur")
    fi
}

complete -o bashdefault -o default -F _landaudit_rules landaudit-rules
