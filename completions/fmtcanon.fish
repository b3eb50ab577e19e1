# Completion of fmtcanon for fish.

set -l commands types canon show format bounds same fits stream
complete -c fmtcanon -f
complete -c fmtcanon -s h -l help -d 'Print help'
complete -c fmtcanon -n "not __fish_seen_subcommand_from $commands" -s V -l version -d 'Print version'
complete -c fmtcanon -n "not __fish_seen_subcommand_from $commands" -a types -d 'Prints the type of each argument of a format, one per line'
complete -c fmtcanon -n "not __fish_seen_subcommand_from $commands" -a canon -d 'Prints the canonical text, which all formats of one meaning share'
complete -c fmtcanon -n "not __fish_seen_subcommand_from $commands" -a show -d 'Prints the parts of a format, and what its directives are reduced to'
complete -c fmtcanon -n "not __fish_seen_subcommand_from $commands" -a format -d 'Prints what printf prints for a format and arguments'
complete -c fmtcanon -n "not __fish_seen_subcommand_from $commands" -a bounds -d 'Prints the smallest and the largest number of bytes that it prints'
complete -c fmtcanon -n "not __fish_seen_subcommand_from $commands" -a same -d 'Says whether two formats are interchangeable, or how they differ'
complete -c fmtcanon -n "not __fish_seen_subcommand_from $commands" -a fits -d 'Says whether one format takes the arguments of another'
complete -c fmtcanon -n "not __fish_seen_subcommand_from $commands" -a stream -d 'Prints the canonical text of standard input'
complete -c fmtcanon -n '__fish_seen_subcommand_from format; and not contains -- -- (commandline -opc)' -a 'n: s:' -d 'An argument: `n:` and a decimal number, or `s:` and a string'
complete -c fmtcanon -n '__fish_seen_subcommand_from types canon show format bounds stream' -l model -x -a 'lp64 ilp32 llp64' -d 'The data model'
complete -c fmtcanon -n '__fish_seen_subcommand_from same fits' -l model -x -a 'lp64 ilp32 llp64 both all' -d 'The data model'
complete -c fmtcanon -n '__fish_seen_subcommand_from types canon show bounds fits same' -s z -l null -d 'Reads formats from standard input, each terminated by NUL'
complete -c fmtcanon -n '__fish_seen_subcommand_from types canon show format bounds fits same' -l literal -d 'Formats are string literals of C source, with their quotes'
complete -c fmtcanon -n '__fish_seen_subcommand_from types canon same' -l whole -d 'Accepts the whole language of printf'
complete -c fmtcanon -n '__fish_seen_subcommand_from fits' -l fewer -d 'Allows G to take fewer arguments than F'
