# Completion of landaudit-witness for bash.

_landaudit_witness() {
    local word=${COMP_WORDS[COMP_CWORD]} before=${COMP_WORDS[COMP_CWORD - 1]} at
    COMPREPLY=()
    for ((at = 1; at < COMP_CWORD; at++)); do
        if [[ ${COMP_WORDS[at]} == -- ]]; then
            mapfile -t COMPREPLY < <(compgen -c -f -- "$word")
            return
        fi
    done
    if [[ $before == --by ]]; then
        mapfile -t COMPREPLY < <(compgen -W 'fexit lsm' -- "$word")
    elif [[ $before == --cgroup ]]; then
        mapfile -t COMPREPLY < <(compgen -d -- "$word")
    elif [[ $word == -* ]]; then
        mapfile -t COMPREPLY < <(compgen -W '-h --help --beside --children --pid --cgroup --landlock --by --' -- "$word")
    else
        mapfile -t COMPREPLY < <(compgen -f -- "$word")
    fi
}

complete -o filenames -F _landaudit_witness landaudit-witness
