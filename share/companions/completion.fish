# Completes the words of a companion program in fish, by what --help lists: options, their values, commands, and else files. Read by the
# program's name.
set -l companion (string replace -r '\.fish$' '' (status basename))
for line in (COLUMNS=100 $companion --help 2>/dev/null)
    if set -l found (string match -r '^  (?:-[a-zA-Z], )?--([a-z-]+) \{([^}]*)\}' -- $line)
        complete -c $companion -l $found[2] -x -a (string replace -a , ' ' $found[3])
    else if set -l found (string match -r '^  (?:-[a-zA-Z], )?--([a-z-]+) [^ ]' -- $line)
        complete -c $companion -l $found[2] -r -F
    else if set -l found (string match -r '^  (?:-[a-zA-Z], )?--([a-z-]+)' -- $line)
        complete -c $companion -l $found[2]
    else if set -l found (string match -r '^  \{([^}]*)\}' -- $line)
        set -l commands (string replace -a , ' ' $found[2])
        complete -c $companion -n "not __fish_seen_subcommand_from $commands" -f -a $commands
    end
end
