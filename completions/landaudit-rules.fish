# Completion of landaudit-rules for fish.

complete -c landaudit-rules -l calls -x -a '1 2 3 4 5' -d 'Print the calls that put policies in force'
complete -c landaudit-rules -l rights -d 'Print the rights of each ABI'
complete -c landaudit-rules -s h -l help -d 'Print help'
complete -c landaudit-rules -s V -l version -d 'Print the version'
complete -c landaudit-rules -a - -d 'Standard input'
