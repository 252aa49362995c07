# Completion of gavyreto's commands, options and files, for bash.
_gavyreto() {
    local word=${COMP_WORDS[COMP_CWORD]} before=${COMP_WORDS[COMP_CWORD - 1]} command=${COMP_WORDS[1]} options
    COMPREPLY=()
    case $before in
        --charset) mapfile -t COMPREPLY < <(compgen -W "windows-1252 utf-8" -- "$word"); return ;;
        --encrypt) mapfile -t COMPREPLY < <(compgen -W "all login none" -- "$word"); return ;;
        -K | --application-intent) mapfile -t COMPREPLY < <(compgen -W "ReadOnly ReadWrite" -- "$word"); return ;;
        --as) mapfile -t COMPREPLY < <(compgen -W "csv sqlite postgresql" -- "$word"); return ;;
        -S | --server | -U | --user | --retries | -d | --database | -N | --seconds | --login-seconds | --certificate-name | --packet-size | --column-room | --port | --table | -j | --jobs) return ;;
    esac
    if ((COMP_CWORD == 1)); then
        mapfile -t COMPREPLY < <(compgen -W "query capture columns adapt many help --help --version -h -V" -- "$word")
        return
    fi
    if [[ $command == help ]]; then
        mapfile -t COMPREPLY < <(compgen -W "query capture columns adapt many" -- "$word")
        return
    fi
    case $command in
        query) options="-S --server -U --user -E --integrated --access-token-file -d --database -i --input -o --output --tables -j --jobs --retries --packets --adapt --encrypt -N -C --trust-server --certificates --certificate-name --seconds --login-seconds -K --application-intent --packet-size --column-room --charset --program" ;;
        capture) options="--port --packets --adapt --column-room --charset --program" ;;
        columns) options="--as --table" ;;
        adapt) options="-o --output --charset" ;;
        many) options="-j --jobs --adapt --scheduler --column-room --charset --program" ;;
    esac
    if [[ $word == -* ]]; then
        mapfile -t COMPREPLY < <(compgen -W "$options -h --help" -- "$word")
    else
        compopt -o filenames 2> /dev/null
        mapfile -t COMPREPLY < <(compgen -f -- "$word")
    fi
}
complete -F _gavyreto gavyreto
