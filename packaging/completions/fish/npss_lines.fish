# fish completion for npss_lines

complete -c npss_lines -l form -x -a 'nfc nfd nfkc nfkd' -d 'the form of the keys'
complete -c npss_lines -l null -d 'NUL ends lines'
complete -c npss_lines -l strict -d 'status 3 where a line is refused'
complete -c npss_lines -l progress -d 'tell lines and bytes on a terminal'
complete -c npss_lines -l caseless -d 'caseless keys, by a third file'
complete -c npss_lines -l help -d 'tell the usage'
complete -c npss_lines -l version -d 'tell the version'
