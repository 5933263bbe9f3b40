# Completes the words of tileshell in fish: options, and files.

complete -c tileshell -l script -r -F -d 'Read the script from a file'
complete -c tileshell -l depth -x -d 'How many steps undo can go back'
complete -c tileshell -l strict -d 'Stop at the first refused line'
complete -c tileshell -s h -l help -d 'Print help'
complete -c tileshell -s V -l version -d 'Print the version'
