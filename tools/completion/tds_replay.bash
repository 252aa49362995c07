# Completion of tds_replay's commands, options and files, for bash.
_tds_replay() {
    local word=${COMP_WORDS[COMP_CWORD]} before=${COMP_WORDS[COMP_CWORD - 1]} command=${COMP_WORDS[1]}
    if [[ $before == = ]]; then
        before=${COMP_WORDS[COMP_CWORD - 2]}
    elif [[ $word == = ]]; then
        before=${COMP_WORDS[COMP_CWORD - 1]} word=
    fi
    COMPREPLY=()
    case $before in
        --charset) mapfile -t COMPREPLY < <(compgen -W "windows-1252 utf-8" -- "$word"); return ;;
        --packet-size) mapfile -t COMPREPLY < <(compgen -W "512 4096 8000 32767" -- "$word"); return ;;
        --column-room | --max-wire) return ;;
    esac
    if ((COMP_CWORD == 1)) || { ((COMP_CWORD == 2)) && [[ $command == help ]]; }; then
        mapfile -t COMPREPLY < <(compgen -W "export check recut help --help --version -h -V" -- "$word")
        return
    fi
    local options="--packet-size --max-wire -h --help"
    [[ $command == recut ]] || options+=" --column-room --charset --all"
    if [[ $word == -* ]]; then
        mapfile -t COMPREPLY < <(compgen -W "$options" -- "$word")
    else
        compopt -o filenames 2> /dev/null
        mapfile -t COMPREPLY < <(compgen -f -- "$word")
    fi
}
complete -F _tds_replay tds_replay
