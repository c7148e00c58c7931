# Completion of mir and mir_tables in bash: commands, options and names of files.
# Sourced from ~/.bashrc, or put into share/bash-completion/completions as `mir` and `mir_tables`.

_mir() {
    local word=${COMP_WORDS[COMP_CWORD]} before=${COMP_WORDS[COMP_CWORD - 1]}
    local commands='optimise stages move ranges divisions tails join thorough passes run trial'
    local passes='tails join arguments optimise clean fold number copies motion divisions sink comparisons terms bounds extensions unread wanted demanded known called'
    local tables='optimise divisions tails join bounds wanted demanded'
    COMPREPLY=()
    if [[ $before == -o ]]; then
        mapfile -t COMPREPLY < <(compgen -f -- "$word")
    elif [[ $word == -* ]]; then
        mapfile -t COMPREPLY < <(compgen -W '--help --version -o' -- "$word")
    elif [[ ${COMP_WORDS[0]##*/} == mir && $COMP_CWORD == 1 ]]; then
        mapfile -t COMPREPLY < <(compgen -W "$commands" -- "$word")
    elif [[ ${COMP_WORDS[0]##*/} == mir_tables && $COMP_CWORD == 1 ]]; then
        mapfile -t COMPREPLY < <(compgen -W "$tables" -- "$word"; compgen -f -X '!*.mir' -- "$word")
    elif [[ ${COMP_WORDS[1]} == passes ]]; then
        mapfile -t COMPREPLY < <(compgen -W "$passes" -- "$word"; compgen -f -X '!*.mir' -- "$word")
    elif [[ ${COMP_WORDS[1]} != trial ]]; then
        mapfile -t COMPREPLY < <(compgen -f -X '!*.mir' -- "$word"; compgen -d -S / -- "$word")
    fi
}

complete -o filenames -F _mir mir mir_tables
