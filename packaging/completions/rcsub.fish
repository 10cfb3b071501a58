# Completions of rcsub for fish.
complete -c rcsub -l ignore-case -d 'ASCII letters match in either case.'
complete -c rcsub -l fixed-strings -s F -d 'The pattern is a text, not an expression.'
complete -c rcsub -l line-by-line -s l -d 'Each line is a text of its own. Only one is in memory.'
complete -c rcsub -l in-place -s i -d 'Change each file, and keep the old one under its name and SUFFIX if that is given.'
complete -c rcsub -l dry-run -s n -d 'Change no file, and print a diff of the lines that would change.'
complete -c rcsub -l help -d 'Print this text.'
complete -c rcsub -l version -s V -d 'Print the version.'
complete -c rcsub -l generate -x -d 'Print completions for a shell, or the options as items of a man page: bash, zsh, fish, man.'
