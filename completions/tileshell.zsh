#compdef tileshell
# Completes the words of tileshell in zsh: options that are not given yet, and files.

_arguments -S \
    '--script=[read the script from a file]:script:_files' \
    '--depth=[how many steps undo can go back]:number from 1 to 10000: ' \
    '--strict[stop at the first refused line]' \
    '(- :)'{-h,--help}'[print help]' \
    '(- :)'{-V,--version}'[print the version]' \
    '1:tile:_files' \
    '2:file for the edited tile:_files'
