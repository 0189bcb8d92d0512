# Completion of hakyll_cli for fish: its commands, and the options of each.
complete -c hakyll_cli -f
complete -c hakyll_cli -n __fish_use_subcommand -a build -d 'Make the site in _site, and compile what is out of date'
complete -c hakyll_cli -n __fish_use_subcommand -a rebuild -d 'Make the site in _site, and compile everything'
complete -c hakyll_cli -n __fish_use_subcommand -a check -d 'Compile everything and write nothing'
complete -c hakyll_cli -n __fish_use_subcommand -a deps -d 'Print what each item asked for'
complete -c hakyll_cli -n __fish_use_subcommand -a clean -d 'Remove all of _site and _cache'
complete -c hakyll_cli -n __fish_use_subcommand -a gen -d 'Build a generated site in memory, to try the program'
complete -c hakyll_cli -n __fish_use_subcommand -a links -d 'Print the links inside the site that lead nowhere'
complete -c hakyll_cli -n '__fish_seen_subcommand_from build rebuild gen' -l workers -x -a '1 2 4 8 16 32 64' -d 'Compile in so many threads'
complete -c hakyll_cli -n '__fish_seen_subcommand_from build rebuild' -l trace -d 'Print what happened, in the order of time'
