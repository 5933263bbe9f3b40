# Completes the words of tileshell in bash: options that are not given yet, and files.

_tileshell()
{
    local word=${COMP_WORDS[COMP_CWORD]} before=${COMP_WORDS[COMP_CWORD - 1]} refused='-?*' given option options=()

    # A word --script=FILE arrives as three words. A file whose name begins with - is refused except there and after --.
    if [[ $word == = ]]; then
        word= refused=
    elif [[ $before == = ]]; then
        before=${COMP_WORDS[COMP_CWORD - 2]} refused=
    fi

    given=" ${COMP_WORDS[*]:1:COMP_CWORD - 1} "
    [[ $given != *' -- '* ]] || refused=
    COMPREPLY=()
    if [[ $before == --depth ]]; then
        return
    elif [[ $word == -* && $before != --script && $given != *' -- '* ]]; then
        for option in --script --depth --strict --help --version; do
            [[ $given == *" $option "* ]] || options+=("$option")
        done
        mapfile -t COMPREPLY < <(compgen -W "${options[*]}" -- "$word")
    else
        compopt -o filenames
        mapfile -t COMPREPLY < <(compgen -f -X "$refused" -- "$word")
    fi
}

complete -F _tileshell tileshell
