# fish completion for npss_caseless

complete -c npss_caseless -n __fish_use_subcommand -f -a key -d 'the caseless key of standard input'
complete -c npss_caseless -n __fish_use_subcommand -f -a compare -d 'whether two lines match caselessly'
complete -c npss_caseless -n __fish_use_subcommand -f -a audit -d 'what a new version breaks'
complete -c npss_caseless -n __fish_use_subcommand -l help -d 'tell the usage'
complete -c npss_caseless -n __fish_use_subcommand -l version -d 'tell the version'
complete -c npss_caseless -n '__fish_seen_subcommand_from key compare' -l form -x -a 'nfc nfd nfkc nfkd' -d 'the form of the key'
complete -c npss_caseless -n '__fish_seen_subcommand_from key' -l check-under -d 'the first three files are of an earlier version'
