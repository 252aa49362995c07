#compdef gavyreto
# Completion of gavyreto's commands, options and files, for zsh.
_gavyreto() {
    local -a commands=(
        'query:ask a server, and write the rows as CSV' 'capture:export the responses in a capture' 'columns:print the columns of a response'
        'adapt:rewrite a response whose columns are refused' 'many:export many responses at once'
    )
    local -a help=('(-h --help)'{-h,--help}'[print help]')
    local -a charset=('--charset=[set of single-byte text]:charset:(windows-1252 utf-8)')
    local -a output=('(-o --output)'{-o,--output=}'[file to write]:file:_files')
    local -a program=('--column-room=[room for the description of columns]:bytes:' '--program=[the program tds_replay]:program:_files' $charset)
    local -a adapt=('--adapt[rewrite columns that are refused]')
    local -a jobs=('(-j --jobs)'{-j,--jobs=}'[how many at once]:jobs:')
    local -a query=(
        '(-S --server)'{-S,--server=}'[HOST or HOST,PORT]:server:' '(-U --user)'{-U,--user=}'[user of the login]:user:'
        '(-d --database)'{-d,--database=}'[database to use]:database:' '*'{-i,--input=}'[file with statements]:file:_files'
        '--encrypt=[least encryption]:encryption:(all login none)' '-N[encrypt all, or the login]:encryption:(m o)'
        '(-C --trust-server)'{-C,--trust-server}'[trust any certificate]' '--certificates=[authorities to trust]:file:_files'
        '--certificate-name=[name that the certificate has]:name:' '--seconds=[longest silence of the server]:seconds:' '--login-seconds=[longest login]:seconds:'
        '(-K --application-intent)'{-K,--application-intent=}'[what is intended]:intent:(ReadOnly ReadWrite)'
        '--packet-size=[packet size to ask for]:bytes:' '--packets=[file for the packets that came]:file:_files'
        '(-E --integrated)'{-E,--integrated}'[login by Kerberos]' '--access-token-file=[file with an access token]:file:_files'
        '--tables=[file of names and statements]:file:_files' '--retries=[how often after a broken connection]:number:'
        $adapt $jobs
    )
    if ((CURRENT == 2)); then
        commands+=('help:print help')
        _describe command commands
        _arguments $help '(-V --version)'{-V,--version}'[print the version]'
        return
    fi
    local command=$words[2]
    shift words
    ((CURRENT--))
    case $command in
        query) _arguments $help $query $output $program '*:statement:' ;;
        capture) _arguments $help '*--port=[port of servers]:port:' $adapt '--packets[keep the packets of each response]' $program '*:file:_files' ;;
        columns) _arguments $help '--as=[what is printed]:format:(csv sqlite postgresql)' '--table=[name of the table]:table:' '*:file:_files' ;;
        adapt) _arguments $help $output $charset '*:file:_files' ;;
        many) _arguments $help $jobs '--scheduler=[Dask cluster]:address or file:_files' $adapt $program '*:file:_files' ;;
        help) _describe command commands ;;
    esac
}
_gavyreto "$@"
