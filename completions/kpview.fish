# Completion of kpview for fish.

# The number of arguments before the one that is completed
function __kpview_argument -a place
    set -l before (commandline -opc)
    test (count $before) -eq $place
end

complete -c kpview -n '__kpview_argument 1' -f
complete -c kpview -n '__kpview_argument 1' -k -a paths -d 'Show where each read takes its value from'
complete -c kpview -n '__kpview_argument 1' -k -a page -d 'Write N cycles with their states as a page of HTML'
complete -c kpview -n '__kpview_argument 1' -k -a svg -d 'Draw N cycles of the pipeline as a picture'
complete -c kpview -n '__kpview_argument 1' -k -a diagram -d 'Print N cycles of the pipeline as text'
complete -c kpview -n '__kpview_argument 1' -k -a stalls -d 'Say why each instruction waits'
complete -c kpview -n '__kpview_argument 1' -k -a same -d 'Say whether two jobs describe the same instruction'
complete -c kpview -n '__kpview_argument 1' -k -a depth -d 'Print the longest path of each stage'
complete -c kpview -n '__kpview_argument 1' -k -a explain -d 'Say why a job is rejected, and warn'
complete -c kpview -n '__kpview_argument 2; and not __fish_seen_subcommand_from paths depth same explain' -f -k -a '10 20 50 100 1000' -d 'Cycles, 0 to 1000'
complete -c kpview -n '__kpview_argument 2; and __fish_seen_subcommand_from diagram' -f -k -a '100..120' -d 'A window, 100 to 120'
complete -c kpview -n '__kpview_argument 2; and __fish_seen_subcommand_from paths' -k -a '--svg'
complete -c kpview -n '__kpview_argument 2; and __fish_seen_subcommand_from depth' -k -a '--files'
complete -c kpview -n '__kpview_argument 2; and __fish_seen_subcommand_from explain' -k -a '--werror read watch asm debug'
complete -c kpview -n '__fish_seen_subcommand_from diagram; and not __kpview_argument 1' -l label -x -d 'Labels: registers, words, pipes or results, as PC,R[1]'
complete -c kpview -n '__fish_seen_subcommand_from diagram; and not __kpview_argument 1' -l listing -r -F -d 'A listing of the program, as objdump prints it'
complete -c kpview -s h -l help -d 'Print help'
complete -c kpview -s V -l version -d 'Print the version'
