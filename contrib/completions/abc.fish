# Completion of abc for fish: put this file into ~/.config/fish/completions.
set -l commands canon dis asm check tidy run calls log replay gen
complete -c abc -f
complete -c abc -n "not __fish_seen_subcommand_from $commands" -a canon -d 'the canonical bytes of a file'
complete -c abc -n "not __fish_seen_subcommand_from $commands" -a dis -d 'the assembly text of a file'
complete -c abc -n "not __fish_seen_subcommand_from $commands" -a asm -d 'the file of an assembly text'
complete -c abc -n "not __fish_seen_subcommand_from $commands" -a check -d 'whether a file is verified'
complete -c abc -n "not __fish_seen_subcommand_from $commands" -a tidy -d 'the file with its pools tidied'
complete -c abc -n "not __fish_seen_subcommand_from $commands" -a run -d 'what a file writes'
complete -c abc -n "not __fish_seen_subcommand_from $commands" -a calls -d 'what the exported function tick gives'
complete -c abc -n "not __fish_seen_subcommand_from $commands" -a log -d 'the log of a run'
complete -c abc -n "not __fish_seen_subcommand_from $commands" -a replay -d 'whether a log is that of its file'
complete -c abc -n "not __fish_seen_subcommand_from $commands" -a gen -d 'a file that is made, run and measured'
for option in fuel:steps objects:objects cells:'slots, properties, elements and scopes' text:'bytes of texts' frames:'open calls' stack:'values of frames'
    set -l parts (string split -m 1 : $option)
    complete -c abc -n '__fish_seen_subcommand_from run calls log' -l $parts[1] -x -d "the most $parts[2]"
end
complete -c abc -n '__fish_seen_subcommand_from calls' -l times -x -d 'how many calls'
complete -c abc -n '__fish_seen_subcommand_from gen' -l seed -x -d 'the seed'
complete -c abc -n '__fish_seen_subcommand_from gen' -l methods -x -d 'how many functions'
