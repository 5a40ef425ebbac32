# Completions of dbgp for bash: `. share/completions/dbgp.bash`, or a copy named dbgp in
# ~/.local/share/bash-completion/completions.

# How many words without `--bound N` stand between the command and the word at the cursor.
_dbgp_place() {
    local place=$((COMP_CWORD - 2))
    [[ ${COMP_WORDS[2]} == --bound && $COMP_CWORD -gt 2 ]] && place=$((place - 2))
    echo "$place"
}

_dbgp_files() {
    local IFS=$'\n'
    compopt -o filenames 2>/dev/null
    mapfile -t COMPREPLY < <(compgen -f -- "$1")
}

_dbgp() {
    local word=${COMP_WORDS[COMP_CWORD]} command=${COMP_WORDS[1]} place first
    COMPREPLY=()
    if ((COMP_CWORD == 1)); then
        mapfile -t COMPREPLY < <(compgen -W 'run talk tape audit dap engine async ide proxy replay soak show' -- "$word")
        return
    fi
    if ((COMP_CWORD == 2)) && [[ $word == -* && $command =~ ^(run|talk|tape|audit|dap|engine|async|replay)$ ]]; then
        COMPREPLY=(--bound)
        return
    fi
    place=$(_dbgp_place)
    if [[ $command == proxy ]]; then
        case $place in
            0) mapfile -t COMPREPLY < <(compgen -W '9001' -- "$word") ;;
            1) mapfile -t COMPREPLY < <(compgen -W '9000 9003' -- "$word") ;;
        esac
        return
    fi
    case $command in
        run | dap | replay) first=0 ;;
        talk | tape | audit | ide) first=1 ;;
        engine | async) first=3 ;;
        *) return ;;
    esac
    if [[ $command =~ ^(engine|async)$ && $place == 0 ]]; then
        mapfile -t COMPREPLY < <(compgen -W '127.0.0.1 localhost' -- "$word")
    elif [[ $command =~ ^(engine|async)$ && $place == 1 || $command == ide && $place == 0 ]]; then
        mapfile -t COMPREPLY < <(compgen -W '9000 9003' -- "$word")
    elif ((place >= first)) && [[ $command != ide || $place == 1 ]]; then
        _dbgp_files "$word"
    fi
}

complete -F _dbgp dbgp
