#compdef tds_replay
# Completion of tds_replay's commands, options and files, for zsh.
_tds_replay() {
    local -a commands=('export:write the rows as CSV' 'check:read the response and write only the report' 'recut:write the message in packets of another size')
    local -a limits=(
        '--packet-size=[greatest packet, or the new size]:bytes:(512 4096 8000 32767)'
        '--max-wire=[greatest number of bytes read]:bytes:'
        '(-h --help)'{-h,--help}'[print help]'
        '::file:_files'
    )
    local -a texts=(
        '--column-room=[room for the description of columns]:bytes:'
        '--charset=[set of single-byte text]:charset:(windows-1252 utf-8)'
        '--all[all responses of the input]'
    )
    if ((CURRENT == 2)); then
        commands+=('help:print help')
        _describe command commands
        _arguments '(-h --help)'{-h,--help}'[print help]' '(-V --version)'{-V,--version}'[print the version]'
        return
    fi
    local command=$words[2]
    shift words
    ((CURRENT--))
    case $command in
        export | check) _arguments $limits $texts ;;
        recut) _arguments $limits ;;
        help) _describe command commands ;;
    esac
}
_tds_replay "$@"
