# Completion of kp for fish. Files are for redirections alone: kp reads standard input.

# The number of arguments before the one that is completed, and the first of them
function __kp_argument -a place
    set -l before (commandline -opc)
    test (count $before) -eq $place; or return 1
    test (count $argv) -eq 1; and return 0
    contains -- $before[2] $argv[2..]
end

complete -c kp -f
complete -c kp -n '__kp_argument 1' -s h -l help -d 'Print the list of the commands'
complete -c kp -n '__kp_argument 1' -s V -l version -d 'Print the version'
complete -c kp -n '__kp_argument 1' -k -a gen -d 'Run N cycles of the generated job number G, and read no input'
complete -c kp -n '__kp_argument 1' -k -a asm -d 'Assemble a DLX program to an image section'
complete -c kp -n '__kp_argument 1' -k -a equiv -d 'Compare the two Verilog modules after the job, part by part'
complete -c kp -n '__kp_argument 1' -k -a watch -d 'Compare N cycles of the Verilog module after the job with the sequential machine'
complete -c kp -n '__kp_argument 1' -k -a read -d 'Check a Verilog module of the subset, and write its canonical text'
complete -c kp -n '__kp_argument 1' -k -a debug -d 'Step through the pipelined machine, by the script after the job'
complete -c kp -n '__kp_argument 1' -k -a timing -d 'Print which instruction is in which stage, and which stages wait, in N cycles'
complete -c kp -n '__kp_argument 1' -k -a vcd -d 'Write N cycles of the pipelined machine as a dump for a wave viewer'
complete -c kp -n '__kp_argument 1' -k -a pipe -d 'Write the pipelined machine as a Verilog module'
complete -c kp -n '__kp_argument 1' -k -a sim -d 'Run N cycles of the pipelined machine, and print each cycle and the state'
complete -c kp -n '__kp_argument 1' -k -a seq -d 'Run N instructions of the sequential machine, and print its state'
complete -c kp -n '__kp_argument 1' -k -a check -d 'Count the parts of a job, or name the first rule that it violates'
complete -c kp -n '__kp_argument 2 seq' -k -a '10 100 1000 10000 100000' -d 'Instructions, 0 to 100000'
complete -c kp -n '__kp_argument 2 sim vcd timing watch' -k -a '10 100 1000 10000 100000' -d 'Cycles, 0 to 100000'
complete -c kp -n '__kp_argument 2 gen' -k -a '0 1 2 3 4 5 6 7 8 9' -d 'Number of the generated job'
complete -c kp -n '__kp_argument 3 gen' -k -a '10 100 1000 10000 100000' -d 'Cycles, 0 to 100000'
