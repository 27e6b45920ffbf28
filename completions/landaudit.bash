# Completion of landaudit for bash.

_landaudit() {
    local cur=${COMP_WORDS[COMP_CWORD]} prev=${COMP_WORDS[COMP_CWORD - 1]}
    # --abi=4 comes as three words.
    if [[ $cur == = ]]; then
        cur=
    elif [[ $prev == = ]]; then
        prev=${COMP_WORDS[COMP_CWORD - 2]}
    fi
    local versions='1 2 3 4 5 1-2 1-3 1-4 1-5 2-3 2-4 2-5 3-4 3-5 4-5'
    local options='--abi --best-effort --explain --refused --differs --kinds --json --workers --grain -h --help -V --version'
    # With an empty answer bash completes names of files; - is standard input.
    COMPREPLY=()
    case $prev in
        --abi) mapfile -t COMPREPLY < <(compgen -W "$versions" -- "$cur") ;;
        --workers) mapfile -t COMPREPLY < <(compgen -W '1 2 4 8 16 32 64' -- "$cur") ;;
        --grain) mapfile -t COMPREPLY < <(compgen -W '0 64 1024' -- "$cur") ;;
        *)
            if [[ $cur == -* ]]; then
                mapfile -t COMPREPLY < <(compgen -W "$options -" -- "$cur")
            fi
            ;;
    esac
}

complete -o bashdefault -o default -F _landaudit landaudit
