# Completion of landaudit-record for fish, made by packaging/completions.

function __landaudit_record_has --description 'The subcommand is one of these, and no command is behind it yet'
    set -l words (commandline -opc)
    contains -- "$words[2]" $argv; and not contains -- -- $words
end

function __landaudit_record_runs --description 'A command of its own is behind the dashes'
    set -l words (commandline -opc)
    contains -- "$words[2]" run; and contains -- -- $words
end

function __landaudit_record_command --description 'Completes the command behind the dashes'
    set -l words (commandline -opc)
    set -l behind $words[(math (contains -i -- -- $words) + 1)..-1]
    complete -C "$(string join ' ' -- (string escape -- $behind) (commandline -ct))"
end

complete -c landaudit-record -f
complete -c landaudit-record -n __fish_is_first_arg -s h -l help -d 'Print help'
complete -c landaudit-record -n __fish_is_first_arg -s V -l version -d 'Print the version'
complete -c landaudit-record -n __fish_is_first_arg -a run -d 'Record a command'
complete -c landaudit-record -n __fish_is_first_arg -a convert -d 'Write the tree and the trace of a recording again, from the log that it keeps'
complete -c landaudit-record -n __fish_is_first_arg -a apply -d 'Write a trace in which the recorded program starts under a policy'
complete -c landaudit-record -n __fish_is_first_arg -a audit -d 'Say what a policy would refuse or, without a policy, what the program\'s own layers refuse'
complete -c landaudit-record -n __fish_is_first_arg -a compare -d 'Compare landaudit\'s answers with the kernel\'s, for a program that ran under Landlock'
complete -c landaudit-record -n __fish_is_first_arg -a suggest -d 'Print the rules that would have let the refused calls pass, as TOML to paste'
complete -c landaudit-record -n __fish_is_first_arg -a tighten -d 'Print the policy without the rights that no recording needs'
complete -c landaudit-record -n __fish_is_first_arg -a distill -d 'Write what recordings ask a policy, each call once, to one small file that is used in their place'
complete -c landaudit-record -n __fish_is_first_arg -a merge -d 'Join the results of \'audit --json\' for different recordings, or distilled recordings, in any order'
complete -c landaudit-record -n __fish_is_first_arg -a pack -d 'Put the folder of a recording into one compressed file'
complete -c landaudit-record -n __fish_is_first_arg -a unpack -d 'Restore the folder of a recording from the file that \'pack\' wrote'
complete -c landaudit-record -n __fish_is_first_arg -a denials -d 'Read in the kernel\'s log what Landlock refused, and suggest rules'
complete -c landaudit-record -n '__landaudit_record_has run convert audit compare suggest tighten distill pack' -a '(__fish_complete_directories)'
complete -c landaudit-record -n '__landaudit_record_has apply merge unpack denials' -F
complete -c landaudit-record -n '__landaudit_record_has run convert apply audit compare suggest tighten distill merge pack unpack denials' -s h -l help -d 'Print help'
complete -c landaudit-record -n '__landaudit_record_has run' -l watch -x -a '(__fish_complete_directories)' -d 'List DIR before the run, to know what the command overwrites, moves and removes there'
complete -c landaudit-record -n '__landaudit_record_has run' -l policy -r -F -d 'Run the command under this policy, as landaudit-policy confine does, keep the policy in OUT/policy.toml, and say at the end what it refused'
complete -c landaudit-record -n '__landaudit_record_has run apply compare suggest tighten' -l abi -x -a '1 2 3 4 5 6 7' -d 'Landlock\'s ABI'
complete -c landaudit-record -n '__landaudit_record_has run convert' -l port-rules -r -F -d 'The policy by which the command restricts itself'
complete -c landaudit-record -n '__landaudit_record_has run convert apply audit suggest tighten denials' -l set -x -d 'The value of ${NAME} in the policy and in the files beside it'
complete -c landaudit-record -n '__landaudit_record_has run' -l readlink -d 'Trace readlink(2) too'
complete -c landaudit-record -n '__landaudit_record_has run' -l witness -d 'Hear by landaudit-witness what the kernel asks Landlock about the command, and count what the recording does not have'
complete -c landaudit-record -n '__landaudit_record_has run' -l by -x -a 'strace witness' -d 'Record by strace, or by landaudit-witness alone'
complete -c landaudit-record -n '__landaudit_record_has run' -l pid -x -a '(__fish_complete_pids)' -d 'Record a running process, its descendants and what they start, by the witness, in place of a command'
complete -c landaudit-record -n '__landaudit_record_has run' -l cgroup -x -a '(__fish_complete_directories)' -d 'Record all processes of a cgroup, such as that of a systemd unit, by the witness'
complete -c landaudit-record -n '__landaudit_record_has run' -l for -x -d 'With --pid or --cgroup, end the recording after this time'
complete -c landaudit-record -n '__landaudit_record_has apply' -l out -r -F -d 'Where to write the trace'
complete -c landaudit-record -n '__landaudit_record_has apply' -l tree -r -F -d 'The tree'
complete -c landaudit-record -n '__landaudit_record_has apply audit suggest tighten' -l program -x -a '(__fish_complete_command)' -d 'Put the policy before each run of this program, given by its name or whole path'
complete -c landaudit-record -n '__landaudit_record_has audit' -l policy -r -F -d 'A policy to try on the recording'
complete -c landaudit-record -n '__landaudit_record_has audit' -l accepted -r -F -d 'Refusals that you know and accept'
complete -c landaudit-record -n '__landaudit_record_has audit' -l abi -x -a '1 2 3 4 5 6 7 1-2 1-3 1-4 1-5 1-6 1-7 2-3 2-4 2-5 2-6 2-7 3-4 3-5 3-6 3-7 4-5 4-6 4-7 5-6 5-7 6-7' -d 'Landlock\'s ABI, or a range'
complete -c landaudit-record -n '__landaudit_record_has audit suggest tighten' -l as-recorded -d 'Judge the rulesets that the program makes itself as they were recorded'
complete -c landaudit-record -n '__landaudit_record_has audit' -l tree -d 'Show the refused calls as a tree of their places, in place of tables'
complete -c landaudit-record -n '__landaudit_record_has audit' -l all -d 'Show each kind of refused call, even if there are more than 20 kinds, and each rule that the run never used'
complete -c landaudit-record -n '__landaudit_record_has audit' -l format -x -a 'text json sarif junit markdown github' -d 'How the result is printed'
complete -c landaudit-record -n '__landaudit_record_has audit compare' -l json -d 'Print the result as JSON'
complete -c landaudit-record -n '__landaudit_record_has audit denials' -l html -r -F -d 'Also write the result to FILE, as a page for a browser'
complete -c landaudit-record -n '__landaudit_record_has audit compare suggest tighten' -l landaudit -r -F -d 'The landaudit to run'
complete -c landaudit-record -n '__landaudit_record_has compare' -l differences -r -F -d 'Write each difference to FILE, as JSON Lines'
complete -c landaudit-record -n '__landaudit_record_has suggest tighten' -l policy -r -F -d 'The policy'
complete -c landaudit-record -n '__landaudit_record_has suggest tighten' -l of-program -d 'The recorded program\'s own policy, as landaudit-policy import prints it'
complete -c landaudit-record -n '__landaudit_record_has suggest tighten' -l process -x -d 'The process of the recording that restricts itself'
complete -c landaudit-record -n '__landaudit_record_has suggest' -l rules -x -d 'At most N rules for a layer'
complete -c landaudit-record -n '__landaudit_record_has suggest' -l style -x -a 'exact base' -d 'Exact grants only what is needed'
complete -c landaudit-record -n '__landaudit_record_has suggest' -l whole -d 'Print the whole policy with the rules in it, and its comments'
complete -c landaudit-record -n '__landaudit_record_has tighten' -l list -d 'Print a table instead'
complete -c landaudit-record -n '__landaudit_record_has distill merge pack' -s o -l output -r -F -d 'The file to write'
complete -c landaudit-record -n '__landaudit_record_has unpack' -l most-bytes -x -d 'Refuse a recording of more than N bytes'
complete -c landaudit-record -n '__landaudit_record_has denials' -l policy -r -F -d 'The policy that was in force'
complete -c landaudit-record -n '__landaudit_record_has denials' -l program -x -a '(__fish_complete_command)' -d 'Only denials of this program, given by its name or whole path, and of layers that it made'
complete -c landaudit-record -n '__landaudit_record_has denials' -l all -d 'Show each kind of refused call and each domain, however many there are'
complete -c landaudit-record -n '__landaudit_record_has denials' -l suggest -d 'Print the rules that grant what was refused, as TOML to paste'
complete -c landaudit-record -n '__landaudit_record_has denials' -l json -d 'Print the result as JSON, with the rules'
complete -c landaudit-record -n __landaudit_record_runs -a '(__landaudit_record_command)'
