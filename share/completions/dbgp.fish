# Completions of dbgp for fish: a copy goes into ~/.config/fish/completions.

# How many words without the command and `--bound N` stand before the cursor.
function __dbgp_place
    set -l words (commandline -opc)
    set -l place (math (count $words) - 2)
    if contains -- --bound $words
        set place (math $place - 2)
    end
    echo $place
end

function __dbgp_files_from
    set -l words (commandline -opc)
    test (count $words) -ge 2; and test $words[2] = $argv[1]; and test (__dbgp_place) -ge $argv[2]
end

function __dbgp_word_is
    set -l words (commandline -opc)
    test (count $words) -ge 2; and test $words[2] = $argv[1]; and test (__dbgp_place) -eq $argv[2]
end

complete -c dbgp -f
complete -c dbgp -n __fish_use_subcommand -a run -d 'run a program of some files'
complete -c dbgp -n __fish_use_subcommand -a talk -d 'serve a session: commands on the input, packets on the output'
complete -c dbgp -n __fish_use_subcommand -a tape -d 'serve a session, and write a record of it'
complete -c dbgp -n __fish_use_subcommand -a audit -d 'say whether a record is honest'
complete -c dbgp -n __fish_use_subcommand -a dap -d 'serve a session in the Debug Adapter Protocol'
complete -c dbgp -n __fish_use_subcommand -a engine -d 'connect to an IDE and serve it a session'
complete -c dbgp -n __fish_use_subcommand -a async -d 'connect to an IDE, and listen while the program runs'
complete -c dbgp -n __fish_use_subcommand -a ide -d 'wait for an engine and play a script'
complete -c dbgp -n __fish_use_subcommand -a proxy -d 'join engines to the IDEs that registered their keys'
complete -c dbgp -n __fish_use_subcommand -a replay -d 'play a proxy over a list of events'
complete -c dbgp -n __fish_use_subcommand -a soak -d 'replay a list of events that is drawn, and print its numbers'
complete -c dbgp -n __fish_use_subcommand -a show -d 'print framed packets, one a line'
for command in run talk tape audit dap engine async replay
    complete -c dbgp -n "__dbgp_word_is $command 0" -l bound -x -d 'how many moments it may have'
end
for command in engine async
    complete -c dbgp -n "__dbgp_word_is $command 0" -a '127.0.0.1 localhost' -d host
    complete -c dbgp -n "__dbgp_word_is $command 1" -a '9000 9003' -d port
end
complete -c dbgp -n '__dbgp_word_is ide 0' -a '9000 9003' -d port
complete -c dbgp -n '__dbgp_word_is ide 1' -F
complete -c dbgp -n '__dbgp_word_is proxy 0' -a 9001 -d 'port of IDEs'
complete -c dbgp -n '__dbgp_word_is proxy 1' -a '9000 9003' -d 'port of engines'
complete -c dbgp -n '__dbgp_files_from run 0' -F
complete -c dbgp -n '__dbgp_files_from talk 1' -F
complete -c dbgp -n '__dbgp_files_from tape 1' -F
complete -c dbgp -n '__dbgp_files_from audit 1' -F
complete -c dbgp -n '__dbgp_files_from dap 0' -F
complete -c dbgp -n '__dbgp_files_from engine 3' -F
complete -c dbgp -n '__dbgp_files_from async 3' -F
complete -c dbgp -n '__dbgp_files_from replay 0' -F
