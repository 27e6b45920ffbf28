# Completion of landaudit for fish.

complete -c landaudit -l abi -x -a '1 2 3 4 5 1-2 1-3 1-4 1-5 2-3 2-4 2-5 3-4 3-5 4-5' -d 'Version of the interface of Landlock, or a range'
complete -c landaudit -l best-effort -d 'Judge programs that drop the rights which the ABI does not have'
complete -c landaudit -l explain -d 'Print why calls are refused or moot'
complete -c landaudit -l refused -d 'Print only refused calls and the totals'
complete -c landaudit -l differs -d 'Print only calls whose answer differs between the ABIs, and the totals'
complete -c landaudit -l kinds -d 'Print each kind of record once, with the number of its records'
complete -c landaudit -l json -d 'Print the report as JSON Lines'
complete -c landaudit -l workers -x -a '1 2 4 8 16 32 64' -d 'Number of threads, 1 to 64'
complete -c landaudit -l grain -x -a '0 64 1024' -d 'Fewest records of a forked process that may go to another thread'
complete -c landaudit -s h -l help -d 'Print help'
complete -c landaudit -s V -l version -d 'Print the version'
complete -c landaudit -a - -d 'Standard input'
