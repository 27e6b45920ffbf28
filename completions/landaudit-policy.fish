# Completion of landaudit-policy for fish, made by packaging/completions.

function __landaudit_policy_has --description 'The subcommand is one of these, and no command is behind it yet'
    set -l words (commandline -opc)
    contains -- "$words[2]" $argv; and not contains -- -- $words
end

function __landaudit_policy_runs --description 'A command of its own is behind the dashes'
    set -l words (commandline -opc)
    contains -- "$words[2]" confine; and contains -- -- $words
end

function __landaudit_policy_command --description 'Completes the command behind the dashes'
    set -l words (commandline -opc)
    set -l behind $words[(math (contains -i -- -- $words) + 1)..-1]
    complete -C "$(string join ' ' -- (string escape -- $behind) (commandline -ct))"
end

complete -c landaudit-policy -f
complete -c landaudit-policy -n __fish_is_first_arg -s h -l help -d 'Print help'
complete -c landaudit-policy -n __fish_is_first_arg -s V -l version -d 'Print the version'
complete -c landaudit-policy -n __fish_is_first_arg -a confine -d 'Run a command under a policy'
complete -c landaudit-policy -n __fish_is_first_arg -a check -d 'Check that a policy allows what it must allow, and refuses what it must refuse'
complete -c landaudit-policy -n __fish_is_first_arg -a lint -d 'Find rules without effect, rules that reach secrets, and parents that are missing'
complete -c landaudit-policy -n __fish_is_first_arg -a diff -d 'Show what a new policy allows and an old one refuses, and the reverse, whatever files exist'
complete -c landaudit-policy -n __fish_is_first_arg -a export -d 'Print a policy as code that puts it in force, or in the form of another program'
complete -c landaudit-policy -n __fish_is_first_arg -a import -d 'Print a policy from elsewhere as TOML'
complete -c landaudit-policy -n '__landaudit_policy_has confine check lint diff export' -F
complete -c landaudit-policy -n '__landaudit_policy_has import' -a '(__fish_complete_directories)'
complete -c landaudit-policy -n '__landaudit_policy_has confine check lint diff export import' -s h -l help -d 'Print help'
complete -c landaudit-policy -n '__landaudit_policy_has confine check lint diff export import' -l set -x -d 'The value of ${NAME} in the policy and in the files beside it'
complete -c landaudit-policy -n '__landaudit_policy_has confine' -l abi -x -a '1 2 3 4 5 6 7' -d 'Landlock\'s ABI'
complete -c landaudit-policy -n '__landaudit_policy_has confine' -l log -d 'Have the kernel log what it refuses the command, from ABI 7 on and if its audit is switched on'
complete -c landaudit-policy -n '__landaudit_policy_has check lint diff' -l format -x -a 'text json sarif junit markdown github' -d 'How the result is printed'
complete -c landaudit-policy -n '__landaudit_policy_has check lint diff' -l json -d 'Print the result as JSON'
complete -c landaudit-policy -n '__landaudit_policy_has check diff' -l html -r -F -d 'Also write the result to FILE, as a page for a browser'
complete -c landaudit-policy -n '__landaudit_policy_has check diff' -l landaudit -r -F -d 'The landaudit to run'
complete -c landaudit-policy -n '__landaudit_policy_has diff' -l old-allows -x -a 'nothing everything' -d 'There is no old policy'
complete -c landaudit-policy -n '__landaudit_policy_has diff' -l accepted -r -F -d 'What the new policy may allow although the old one refuses it'
complete -c landaudit-policy -n '__landaudit_policy_has diff' -l abi -x -a '1 2 3 4 5 6 7 1-2 1-3 1-4 1-5 1-6 1-7 2-3 2-4 2-5 2-6 2-7 3-4 3-5 3-6 3-7 4-5 4-6 4-7 5-6 5-7 6-7' -d 'Landlock\'s ABI, or a range'
complete -c landaudit-policy -n '__landaudit_policy_has export' -l c -d 'Print C99'
complete -c landaudit-policy -n '__landaudit_policy_has export' -l rust -d 'Print Rust'
complete -c landaudit-policy -n '__landaudit_policy_has export' -l go -d 'Print Go'
complete -c landaudit-policy -n '__landaudit_policy_has export' -l setpriv -d 'Print a script that runs a command by setpriv, on this machine'
complete -c landaudit-policy -n '__landaudit_policy_has export' -l landrun -d 'Print a script that runs a command by landrun'
complete -c landaudit-policy -n '__landaudit_policy_has export' -l landlockconfig -d 'Print a configuration of landlockconfig, as TOML'
complete -c landaudit-policy -n '__landaudit_policy_has export' -l json -d 'Print the policy as a line of JSON, with groups of rules expanded'
complete -c landaudit-policy -n '__landaudit_policy_has export' -l widen -d 'Where the form can\'t express the policy, grant more and say what, instead of failing'
complete -c landaudit-policy -n '__landaudit_policy_has export' -l log -d 'Have the kernel log what it refuses to programs that are executed afterwards, from ABI 7 on and if its audit is switched on'
complete -c landaudit-policy -n '__landaudit_policy_has import' -l landlockconfig -r -F -d 'A configuration of landlockconfig, .toml or .json'
complete -c landaudit-policy -n '__landaudit_policy_has import' -l setpriv -x -d 'A command line of setpriv, as one word'
complete -c landaudit-policy -n '__landaudit_policy_has import' -l landrun -x -d 'A command line of landrun, as one word'
complete -c landaudit-policy -n '__landaudit_policy_has import' -l firejail -r -F -d 'A profile of firejail, with the profiles beside it'
complete -c landaudit-policy -n '__landaudit_policy_has import' -l program -x -a '(__fish_complete_command)' -d 'The program of the recording that restricts itself, by its name or whole path'
complete -c landaudit-policy -n '__landaudit_policy_has import' -l process -x -d 'The process of the recording that restricts itself'
complete -c landaudit-policy -n __landaudit_policy_runs -a '(__landaudit_policy_command)'
