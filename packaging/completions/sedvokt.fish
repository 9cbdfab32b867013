# Completes sedvokt in fish.

set -l commands stats verify get scan history manifest dump files compact clean job install blocks
set -l folders stats verify get scan history manifest files compact clean job install
set -l readers manifest stats verify get scan history

complete -c sedvokt -f
complete -c sedvokt -s h -l help -d 'Print help'
complete -c sedvokt -s v -l verbose -d 'Tell how long it took'
complete -c sedvokt -s q -l quiet -d 'Tell nothing but what is wrong'
complete -c sedvokt -n __fish_use_subcommand -s V -l version \
    -d 'Print the version, and whether it is proved'

complete -c sedvokt -n __fish_use_subcommand -a stats -d 'Print what each level of a database has'
complete -c sedvokt -n __fish_use_subcommand -a verify -d 'Test all tables of a database'
complete -c sedvokt -n __fish_use_subcommand -a get -d 'Print the value of a key'
complete -c sedvokt -n __fish_use_subcommand -a scan -d 'Print keys and their values'
complete -c sedvokt -n __fish_use_subcommand -a history -d 'Print all entries of a key'
complete -c sedvokt -n __fish_use_subcommand -a manifest -d 'Print the version of a database'
complete -c sedvokt -n __fish_use_subcommand -a dump -d 'Print the entries of a table'
complete -c sedvokt -n __fish_use_subcommand -a files -d 'Print which files a copy needs'
complete -c sedvokt -n __fish_use_subcommand -a compact -d 'Merge files of a level into the next'
complete -c sedvokt -n __fish_use_subcommand -a clean -d 'Remove files that are not needed'
complete -c sedvokt -n __fish_use_subcommand -a job -d 'Print what a compaction would read'
complete -c sedvokt -n __fish_use_subcommand -a install -d 'Install what compact --out made'
complete -c sedvokt -n __fish_use_subcommand -a blocks -d 'Merge two blocks of tables into one'
complete -c sedvokt -n __fish_use_subcommand -a help -d 'Print help'

complete -c sedvokt -n '__fish_seen_subcommand_from help' -a "$commands"
complete -c sedvokt -n '__fish_seen_subcommand_from blocks dump' -F
complete -c sedvokt -n "__fish_seen_subcommand_from $folders" -a '(__fish_complete_directories)'
complete -c sedvokt -n '__fish_seen_subcommand_from get scan' -l at -x -d 'Read at this sequence'
complete -c sedvokt -n '__fish_seen_subcommand_from dump manifest stats get scan history' -l text \
    -d 'Keys and values are text'
complete -c sedvokt -n '__fish_seen_subcommand_from get scan history' -l utf8 \
    -d 'Print keys and values as UTF-8'
complete -c sedvokt -n "__fish_seen_subcommand_from $readers files compact" \
    -l json -d 'Print JSON, one object a line'
complete -c sedvokt -n '__fish_seen_subcommand_from verify' -l table -r -F -d 'Test a table alone'
complete -c sedvokt -n '__fish_seen_subcommand_from verify' -l all-faults \
    -d 'Print what is wrong with each file'
complete -c sedvokt -n '__fish_seen_subcommand_from get' -l raw -d 'Print the bytes themselves'
complete -c sedvokt -n '__fish_seen_subcommand_from scan' -l from -x -d 'The first key'
complete -c sedvokt -n '__fish_seen_subcommand_from scan' -l to -x -d 'The key before which to end'
complete -c sedvokt -n '__fish_seen_subcommand_from get' -l stdin -d 'Read keys from standard input'
complete -c sedvokt -n '__fish_seen_subcommand_from scan' -l prefix -x -d 'What keys begin with'
complete -c sedvokt -n '__fish_seen_subcommand_from scan' -l count -d 'Print how many keys there are'
complete -c sedvokt -n '__fish_seen_subcommand_from scan' -l limit -x -d 'At most N keys'
complete -c sedvokt -n '__fish_seen_subcommand_from scan' -l keys -d 'Print keys alone'
complete -c sedvokt -n '__fish_seen_subcommand_from clean' -l dry-run -d 'Print names, remove none'
complete -c sedvokt -n '__fish_seen_subcommand_from stats verify get scan history compact install' \
    -l memory -x \
    -d 'MiB of tables that the test may hold'
complete -c sedvokt -n '__fish_seen_subcommand_from get scan history compact' -l no-verify \
    -d 'Take the version for lawful'
complete -c sedvokt -n "__fish_seen_subcommand_from $readers compact" -l fail-on-logs \
    -d 'Refuse writes that are only in a log'
complete -c sedvokt -n "__fish_seen_subcommand_from $readers files" -l no-lock \
    -d 'Neither lock the folder nor look for locks'
complete -c sedvokt -n '__fish_seen_subcommand_from install' -l no-verify \
    -d 'Do not compare outputs with inputs'
complete -c sedvokt -n '__fish_seen_subcommand_from blocks' -l at -x \
    -d 'The key where the second range begins'

set -l compact '__fish_seen_subcommand_from compact'
set -l installs '__fish_seen_subcommand_from compact install'
complete -c sedvokt -n '__fish_seen_subcommand_from job' -l parts -d 'The parts of the level'
complete -c sedvokt -n '__fish_seen_subcommand_from job compact' -l level -x -a '0 1 2 3 4 5' \
    -d 'The level whose files move down'
complete -c sedvokt -n $compact -l all -d 'All levels, down to the deepest'
complete -c sedvokt -n $compact -l whole -d 'All files of a level, by one manifest'
complete -c sedvokt -n $compact -l out -x -a '(__fish_complete_directories)' \
    -d 'The folder that gets the outcome'
complete -c sedvokt -n $compact -l part -x -d 'The number of a part of the level'
complete -c sedvokt -n $compact -l first-number -x -d 'The number of the first new table'
complete -c sedvokt -n $compact -l workers -x -d 'How many workers do it, 1 to 64'
complete -c sedvokt -n $compact -l ranges -x -d 'At most how many ranges of keys, 1 to 4096'
complete -c sedvokt -n $installs -l snapshot -x -d 'The oldest snapshot that stays'
complete -c sedvokt -n $installs -l snapshots -x -d 'The snapshots that stay, as 3,7,9'
complete -c sedvokt -n $compact -l block-size -x -d 'Bytes at which a block ends'
complete -c sedvokt -n $compact -l file-size -x -d 'Bytes at which a table ends'
complete -c sedvokt -n $installs -l clean -d 'Remove files that are not needed any more'
