# bash completion for radosbpf

_radosbpf() {
    local current=${COMP_WORDS[COMP_CWORD]} previous=${COMP_WORDS[COMP_CWORD - 1]} command='' words=() i
    for ((i = 1; i < COMP_CWORD; i++)); do
        case ${COMP_WORDS[i]} in
            -p | --pool | -N | --namespace | -c | --conf | -n | --name | -k | --keyring | --timeout | --input | --object | --dir | --budget) i=$((i + 1)) ;;
            -*) ;;
            *) if [ -z "$command" ]; then command=${COMP_WORDS[i]}; else words+=("${COMP_WORDS[i]}"); fi ;;
        esac
    done
    case $previous in
        -c | --conf | -k | --keyring | --dir)
            mapfile -t COMPREPLY < <(compgen -f -- "$current")
            return
            ;;
        -p | --pool | -N | --namespace | -n | --name | --timeout | --input | --object | --budget) return ;;
    esac
    case $command,${#words[@]} in
        ,*) mapfile -t COMPREPLY < <(compgen -W 'install uninstall installed stats check verify load unload list call --pool --namespace --conf --name --keyring --timeout --help' -- "$current") ;;
        install,0 | verify,0 | load,2) mapfile -t COMPREPLY < <(compgen -f -- "$current") ;;
        install,*) mapfile -t COMPREPLY < <(compgen -W '--budget --dir --replace --help' -- "$current") ;;
        uninstall,* | installed,*) mapfile -t COMPREPLY < <(compgen -W '--dir --help' -- "$current") ;;
        stats,1) mapfile -t COMPREPLY < <(compgen -W '--prometheus --help' -- "$current") ;;
        verify,*) mapfile -t COMPREPLY < <(compgen -W '--object --help' -- "$current") ;;
        call,1)
            if [[ $current == @* ]]; then mapfile -t COMPREPLY < <(compgen -P @ -f -- "${current#@}"); fi
            ;;
        call,*) mapfile -t COMPREPLY < <(compgen -W '--input --read --show --help' -- "$current") ;;
    esac
}

complete -o filenames -F _radosbpf radosbpf
