# Completion of the words of curspan in fish.
set -l subcommands run paint show check help
set -l screen run paint show
set -l files run paint show check

complete -c curspan -f
complete -c curspan -n "not __fish_seen_subcommand_from $subcommands" -a run -d 'Run a script, and send the terminal bytes'
complete -c curspan -n "not __fish_seen_subcommand_from $subcommands" -a paint -d 'Run a script, and print its panels over the standard screen'
complete -c curspan -n "not __fish_seen_subcommand_from $subcommands" -a show -d 'Print the picture that terminal bytes leave'
complete -c curspan -n "not __fish_seen_subcommand_from $subcommands" -a check -d 'Tell what is wrong with a script, and run nothing'
complete -c curspan -n "not __fish_seen_subcommand_from $subcommands" -a help -d 'Print help'
complete -c curspan -n "not __fish_seen_subcommand_from $subcommands" -s V -l version -d 'Print the version'
complete -c curspan -s h -l help -d 'Print help'
complete -c curspan -n "__fish_seen_subcommand_from help" -a "run paint show check"
complete -c curspan -n "__fish_seen_subcommand_from $screen" -l lines -x -d 'Lines of the screen, 1 to 999'
complete -c curspan -n "__fish_seen_subcommand_from $screen" -l cols -x -d 'Columns of the screen, 1 to 999'
complete -c curspan -n "__fish_seen_subcommand_from $files" -F
# After an equals sign fish itself offers nothing for a name with a colon or an equals sign.
complete -c curspan -n "__fish_seen_subcommand_from $files" -l log -r -F \
    -a '(__fish_complete_path (string replace -r "^--log=" "" -- (commandline -ct)))' \
    -d 'File that gets the log, in place of standard error'
complete -c curspan -n "__fish_seen_subcommand_from run paint" -l quiet -d 'Log faults alone, and not what calls answer'
