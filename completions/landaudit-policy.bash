# Completion of landaudit-policy for bash, made by packaging/completions.

# The options of a subcommand, or what can come instead of one.
_landaudit_policy_words() {
    case $1 in
        confine) echo '-h --help --set --abi --log --' ;;
        check) echo '-h --help --set --format --json --html --landaudit' ;;
        lint) echo '-h --help --set --format --json' ;;
        diff) echo '-h --help --old-allows --accepted --set --abi --format --json --html --landaudit' ;;
        export) echo '-h --help --set --c --rust --go --setpriv --landrun --landlockconfig --json --widen --log' ;;
        import) echo '-h --help --landlockconfig --setpriv --landrun --firejail --program --process --set' ;;
        *) echo 'confine check lint diff export import -h --help -V --version' ;;
    esac
}

# The command behind the dashes, which are at an index of the line.
_landaudit_policy_command() {
    if declare -F _command_offset > /dev/null; then
        _command_offset $(($1 + 1))
    elif ((COMP_CWORD == $1 + 1)); then
        _landaudit_policy_offer -c
    fi
}

# What compgen makes that begins as $cur does.
_landaudit_policy_offer() {
    mapfile -t -O ${#COMPREPLY[@]} COMPREPLY < <(compgen "$@" -- "$cur")
}

_landaudit_policy_offer_files() {
    compopt -o filenames 2> /dev/null
    _landaudit_policy_offer "$@"
}

_landaudit_policy() {
    local cur=${COMP_WORDS[COMP_CWORD]} prev=${COMP_WORDS[COMP_CWORD - 1]} sub= i
    # With an empty answer bash completes names of files.
    COMPREPLY=()
    ((COMP_CWORD > 1)) && sub=${COMP_WORDS[1]}
    for ((i = 2; i < COMP_CWORD; i++)); do
        if [[ " confine " == *" $sub "* && ${COMP_WORDS[i]} == -- ]]; then
            _landaudit_policy_command "$i"
            return
        fi
    done
    # --abi=4 comes as three words.
    if [[ $cur == = ]]; then
        cur=
    elif [[ $prev == = ]]; then
        prev=${COMP_WORDS[COMP_CWORD - 2]}
    fi
    case "$sub $prev" in
        'confine --set' | 'check --set' | 'lint --set' | 'diff --set' | 'export --set' | 'import --setpriv' | 'import --landrun' | 'import --process' | 'import --set') compopt +o bashdefault +o default 2> /dev/null ;;
        'confine --abi') _landaudit_policy_offer -W '1 2 3 4 5 6 7' ;;
        'check --format' | 'lint --format' | 'diff --format') _landaudit_policy_offer -W 'text json sarif junit markdown github' ;;
        'check --html' | 'check --landaudit' | 'diff --html' | 'diff --landaudit' | 'import --landlockconfig' | 'import --firejail') _landaudit_policy_offer_files -f ;;
        'diff --old-allows') _landaudit_policy_offer -W 'nothing everything' ;;
        'diff --accepted') _landaudit_policy_offer_files -d; _landaudit_policy_offer_files -f -X '!*.toml' ;;
        'diff --abi') _landaudit_policy_offer -W '1 2 3 4 5 6 7 1-2 1-3 1-4 1-5 1-6 1-7 2-3 2-4 2-5 2-6 2-7 3-4 3-5 3-6 3-7 4-5 4-6 4-7 5-6 5-7 6-7' ;;
        'import --program') _landaudit_policy_offer -c ;;
        *)
            if [[ -z $sub || $cur == -* ]]; then
                _landaudit_policy_offer -W "$(_landaudit_policy_words "$sub")"
                return
            fi
            case $sub in
                confine | check | lint | diff | export) _landaudit_policy_offer_files -d; _landaudit_policy_offer_files -f -X '!*.toml' ;;
                import) _landaudit_policy_offer_files -d ;;
            esac
            ;;
    esac
}

complete -o bashdefault -o default -F _landaudit_policy landaudit-policy
