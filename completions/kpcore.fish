# Completion of kpcore for fish.

complete -c kpcore -l names -d 'Print the table of the registers'
complete -c kpcore -l wires -d 'Print the table of the wires of the stages'
complete -c kpcore -l named -d 'Add names of registers and wires, by stages'
complete -c kpcore -l comments -d 'Add comments on registers and wires'
complete -c kpcore -s h -l help -d 'Print help'
complete -c kpcore -s V -l version -d 'Print the version'
