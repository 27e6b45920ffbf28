# Completion of landaudit-record for bash, made by packaging/completions.

# The options of a subcommand, or what can come instead of one.
_landaudit_record_words() {
    case $1 in
        run) echo '-h --help --watch --policy --abi --port-rules --set --readlink --witness --by --pid --cgroup --for --' ;;
        convert) echo '-h --help --port-rules --set' ;;
        apply) echo '-h --help --out --tree --set --program --abi' ;;
        audit) echo '-h --help --policy --accepted --set --program --abi --as-recorded --tree --all --format --json --html --landaudit' ;;
        compare) echo '-h --help --abi --json --differences --landaudit' ;;
        suggest) echo '-h --help --policy --of-program --process --rules --style --whole --set --program --abi --as-recorded --landaudit' ;;
        tighten) echo '-h --help --policy --of-program --process --list --set --program --abi --as-recorded --landaudit' ;;
        distill) echo '-h --help -o --output' ;;
        merge) echo '-h --help -o --output' ;;
        pack) echo '-h --help -o --output' ;;
        unpack) echo '-h --help --most-bytes' ;;
        denials) echo '-h --help --policy --set --program --all --suggest --json --html' ;;
        *) echo 'run convert apply audit compare suggest tighten distill merge pack unpack denials -h --help -V --version' ;;
    esac
}

# The command behind the dashes, which are at an index of the line.
_landaudit_record_command() {
    if declare -F _command_offset > /dev/null; then
        _command_offset $(($1 + 1))
    elif ((COMP_CWORD == $1 + 1)); then
        _landaudit_record_offer -c
    fi
}

# What compgen makes that begins as $cur does.
_landaudit_record_offer() {
    mapfile -t -O ${#COMPREPLY[@]} COMPREPLY < <(compgen "$@" -- "$cur")
}

_landaudit_record_offer_files() {
    compopt -o filenames 2> /dev/null
    _landaudit_record_offer "$@"
}

_landaudit_record() {
    local cur=${COMP_WORDS[COMP_CWORD]} prev=${COMP_WORDS[COMP_CWORD - 1]} sub= i
    # With an empty answer bash completes names of files.
    COMPREPLY=()
    ((COMP_CWORD > 1)) && sub=${COMP_WORDS[1]}
    for ((i = 2; i < COMP_CWORD; i++)); do
        if [[ " run " == *" $sub "* && ${COMP_WORDS[i]} == -- ]]; then
            _landaudit_record_command "$i"
            return
        fi
    done
    # --abi=4 comes as three words.
    if [[ $cur == = ]]; then
        cur=
    elif [[ $prev == = ]]; then
        prev=${COMP_WORDS[COMP_CWORD - 2]}
    fi
    case "$sub $prev" in
        'run --watch' | 'run --cgroup') _landaudit_record_offer_files -d ;;
        'run --policy' | 'run --port-rules' | 'convert --port-rules' | 'audit --policy' | 'audit --accepted' | 'suggest --policy' | 'tighten --policy' | 'denials --policy') _landaudit_record_offer_files -d; _landaudit_record_offer_files -f -X '!*.toml' ;;
        'run --abi' | 'apply --abi' | 'compare --abi' | 'suggest --abi' | 'tighten --abi') _landaudit_record_offer -W '1 2 3 4 5 6 7' ;;
        'run --set' | 'run --for' | 'convert --set' | 'apply --set' | 'audit --set' | 'suggest --process' | 'suggest --rules' | 'suggest --set' | 'tighten --process' | 'tighten --set' | 'unpack --most-bytes' | 'denials --set') compopt +o bashdefault +o default 2> /dev/null ;;
        'run --by') _landaudit_record_offer -W 'strace witness' ;;
        'run --pid') _landaudit_record_offer -W "$(cd /proc && echo [0-9]*)" ;;
        'apply --out' | 'apply --tree' | 'audit --html' | 'audit --landaudit' | 'compare --differences' | 'compare --landaudit' | 'suggest --landaudit' | 'tighten --landaudit' | 'distill -o' | 'distill --output' | 'merge -o' | 'merge --output' | 'pack -o' | 'pack --output' | 'denials --html') _landaudit_record_offer_files -f ;;
        'apply --program' | 'audit --program' | 'suggest --program' | 'tighten --program' | 'denials --program') _landaudit_record_offer -c ;;
        'audit --abi') _landaudit_record_offer -W '1 2 3 4 5 6 7 1-2 1-3 1-4 1-5 1-6 1-7 2-3 2-4 2-5 2-6 2-7 3-4 3-5 3-6 3-7 4-5 4-6 4-7 5-6 5-7 6-7' ;;
        'audit --format') _landaudit_record_offer -W 'text json sarif junit markdown github' ;;
        'suggest --style') _landaudit_record_offer -W 'exact base' ;;
        *)
            if [[ -z $sub || $cur == -* ]]; then
                _landaudit_record_offer -W "$(_landaudit_record_words "$sub")"
                return
            fi
            case $sub in
                run | convert | audit | compare | suggest | tighten | distill | pack) _landaudit_record_offer_files -d ;;
                apply | merge | unpack | denials) _landaudit_record_offer_files -f ;;
            esac
            ;;
    esac
}

complete -o bashdefault -o default -F _landaudit_record landaudit-record
