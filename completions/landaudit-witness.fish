# Completion of landaudit-witness for fish.
complete -c landaudit-witness -s h -l help -d 'Print the usage'
complete -c landaudit-witness -l beside -d 'Hear the processes that the children of the parent start'
complete -c landaudit-witness -l children -d 'Hear the children that the parent starts'
complete -c landaudit-witness -l pid -x -a '(__fish_complete_pids)' -d 'Process to hear'
complete -c landaudit-witness -l cgroup -x -a '(__fish_complete_directories)' -d 'Cgroup to hear'
complete -c landaudit-witness -l landlock -d 'Hear the answers of Landlock alone too'
complete -c landaudit-witness -l by -x -a 'fexit lsm' -d 'How to listen'
