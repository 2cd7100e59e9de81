# fish completion for npss

complete -c npss -n __fish_use_subcommand -f -a normalize -d 'the normal form of standard input'
complete -c npss -n __fish_use_subcommand -f -a key -d 'the same, refused where a code point is unassigned'
complete -c npss -n __fish_use_subcommand -f -a compare -d 'whether two lines are equivalent'
complete -c npss -n __fish_use_subcommand -f -a audit -d 'what a new version breaks'
complete -c npss -n __fish_use_subcommand -f -a replay -d 'what nodes keep over a chain of versions'
complete -c npss -n '__fish_seen_subcommand_from normalize key compare replay' -l form -x -a 'nfc nfd nfkc nfkd' -d 'the form of the output'
complete -c npss -n '__fish_seen_subcommand_from key' -l check-under -d 'the first two files are of an earlier version'
