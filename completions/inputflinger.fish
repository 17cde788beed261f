# Completions of inputflinger for fish. Made by docs/make-man from the program's help.
complete -c inputflinger -f
complete -c inputflinger -n __fish_use_subcommand -l help
complete -c inputflinger -n __fish_use_subcommand -l version
complete -c inputflinger -n __fish_use_subcommand -a replay -d 'what each window is sent for a recording'
complete -c inputflinger -n '__fish_seen_subcommand_from replay; and test (count (commandline -opc)) -eq 2' -l help
complete -c inputflinger -n '__fish_seen_subcommand_from replay' -l session -r -F
complete -c inputflinger -n '__fish_seen_subcommand_from replay' -l events -r -F
complete -c inputflinger -n __fish_use_subcommand -a race -d 'an order of the calls that threads made, and what each window is sent in it'
complete -c inputflinger -n '__fish_seen_subcommand_from race; and test (count (commandline -opc)) -eq 2' -l help
complete -c inputflinger -n '__fish_seen_subcommand_from race' -l session -r -F
complete -c inputflinger -n '__fish_seen_subcommand_from race' -l events -r -F
complete -c inputflinger -n __fish_use_subcommand -a check -d 'what each window is sent if the calls come in the order that a file lists'
complete -c inputflinger -n '__fish_seen_subcommand_from check; and test (count (commandline -opc)) -eq 2' -l help
complete -c inputflinger -n '__fish_seen_subcommand_from check' -l session -r -F
complete -c inputflinger -n '__fish_seen_subcommand_from check' -l events -r -F
complete -c inputflinger -n '__fish_seen_subcommand_from check' -l order -r -F
complete -c inputflinger -n __fish_use_subcommand -a verify -d 'well formed <channels> <messages>, if every stream of a file is well-formed'
complete -c inputflinger -n '__fish_seen_subcommand_from verify; and test (count (commandline -opc)) -eq 2' -l help
complete -c inputflinger -n '__fish_seen_subcommand_from verify' -l stream -r -F
complete -c inputflinger -n __fish_use_subcommand -a work -d 'a summary of the run of a session that is generated from a seed'
complete -c inputflinger -n '__fish_seen_subcommand_from work; and test (count (commandline -opc)) -eq 2' -l help
complete -c inputflinger -n '__fish_seen_subcommand_from work' -l seed -x
complete -c inputflinger -n '__fish_seen_subcommand_from work' -l packets -x
complete -c inputflinger -n __fish_use_subcommand -a batch -d 'the messages of a stream file as an application receives them, frame by frame'
complete -c inputflinger -n '__fish_seen_subcommand_from batch; and test (count (commandline -opc)) -eq 2' -l help
complete -c inputflinger -n '__fish_seen_subcommand_from batch' -l stream -r -F
complete -c inputflinger -n '__fish_seen_subcommand_from batch' -l frame -x
complete -c inputflinger -n __fish_use_subcommand -a hover -d 'what each window on display 0 is sent for a mouse that hovers'
complete -c inputflinger -n '__fish_seen_subcommand_from hover; and test (count (commandline -opc)) -eq 2' -l help
complete -c inputflinger -n '__fish_seen_subcommand_from hover' -l session -r -F
complete -c inputflinger -n '__fish_seen_subcommand_from hover' -l events -r -F
complete -c inputflinger -n '__fish_seen_subcommand_from hover' -l mouse -r -F
complete -c inputflinger -n __fish_use_subcommand -a emit -d 'a recording of what a device did in the stream of a channel'
complete -c inputflinger -n '__fish_seen_subcommand_from emit; and test (count (commandline -opc)) -eq 2' -l help
complete -c inputflinger -n '__fish_seen_subcommand_from emit' -l stream -r -F
complete -c inputflinger -n '__fish_seen_subcommand_from emit' -l channel -x
complete -c inputflinger -n '__fish_seen_subcommand_from emit' -l device -x
complete -c inputflinger -n __fish_use_subcommand -a inspect -d 'what both files hold, and hints at what was probably not meant'
complete -c inputflinger -n '__fish_seen_subcommand_from inspect; and test (count (commandline -opc)) -eq 2' -l help
complete -c inputflinger -n '__fish_seen_subcommand_from inspect' -l session -r -F
complete -c inputflinger -n '__fish_seen_subcommand_from inspect' -l events -r -F
complete -c inputflinger -n __fish_use_subcommand -a why -d 'why each finger and each key went where it went'
complete -c inputflinger -n '__fish_seen_subcommand_from why; and test (count (commandline -opc)) -eq 2' -l help
complete -c inputflinger -n '__fish_seen_subcommand_from why' -l session -r -F
complete -c inputflinger -n '__fish_seen_subcommand_from why' -l events -r -F
complete -c inputflinger -n __fish_use_subcommand -a judge -d 'channel <id> whole <messages> for each section, if every stream is whole'
complete -c inputflinger -n '__fish_seen_subcommand_from judge; and test (count (commandline -opc)) -eq 2' -l help
complete -c inputflinger -n '__fish_seen_subcommand_from judge' -l stream -r -F
complete -c inputflinger -n __fish_use_subcommand -a compare -d 'same and the greatest differences in time and place, if two stream files agree within these'
complete -c inputflinger -n '__fish_seen_subcommand_from compare; and test (count (commandline -opc)) -eq 2' -l help
complete -c inputflinger -n '__fish_seen_subcommand_from compare' -l want -r -F
complete -c inputflinger -n '__fish_seen_subcommand_from compare' -l got -r -F
complete -c inputflinger -n '__fish_seen_subcommand_from compare' -l us -x
complete -c inputflinger -n '__fish_seen_subcommand_from compare' -l pixels -x
complete -c inputflinger -n '__fish_seen_subcommand_from compare' -l want-channel -x
complete -c inputflinger -n '__fish_seen_subcommand_from compare' -l got-channel -x
complete -c inputflinger -n '__fish_seen_subcommand_from compare' -l moves -x -a 'none each'
