# Completion of kprun for fish.

complete -c kprun -n __fish_use_subcommand -a run -d 'Run a job until a condition holds'
complete -c kprun -n '__fish_seen_subcommand_from run' -l until -x -a 'halt retired=' -d 'End where this holds'
complete -c kprun -n '__fish_seen_subcommand_from run' -l limit -x -d 'Run at most so many cycles'
complete -c kprun -n '__fish_seen_subcommand_from run' -l only -x -d 'Print these registers and words'
complete -c kprun -n '__fish_seen_subcommand_from run' -l quiet -d 'Print no state'
complete -c kprun -n '__fish_seen_subcommand_from run' -l expect -r -d 'Compare with this file'
complete -c kprun -s h -l help -d 'Print help'
complete -c kprun -s V -l version -d 'Print the version'
