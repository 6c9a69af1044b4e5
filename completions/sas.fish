# Completion of `sas` for fish: requests, flags and files.

complete -c sas -f
complete -c sas -n __fish_use_subcommand -s h -l help -d 'Print help'
complete -c sas -n __fish_use_subcommand -s V -l version -d 'Print the version'

complete -c sas -n __fish_use_subcommand -a plan -d 'Check whether a plan solves a task'
complete -c sas -n __fish_use_subcommand -a plans -d 'Check many plans of a task'
complete -c sas -n __fish_use_subcommand -a trace -d 'Print what each step of a plan changes'
complete -c sas -n __fish_use_subcommand -a mutex -d 'Print which mutex groups are shown to be exclusive'
complete -c sas -n __fish_use_subcommand -a show -d 'Print what a task is about'
complete -c sas -n __fish_use_subcommand -a check -d 'Check whether a task is layered'
complete -c sas -n __fish_use_subcommand -a print -d 'Print a task file in canonical form'
complete -c sas -n __fish_use_subcommand -a steps -d 'Print a plan file in canonical form'
complete -c sas -n __fish_use_subcommand -a help -d 'Print help'

complete -c sas -n '__fish_seen_subcommand_from plan plans trace mutex show check print steps' -F
complete -c sas -n '__fish_seen_subcommand_from plan plans trace mutex show check print steps' -s h -l help -d 'Print help'
complete -c sas -n '__fish_seen_subcommand_from plan plans trace mutex show check print steps' -l why -d 'Add the reasons for a no'
complete -c sas -n '__fish_seen_subcommand_from help' -a 'plan plans trace mutex show check print steps'
