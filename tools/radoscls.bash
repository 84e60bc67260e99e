# Completions of radoscls for bash, made by tools/manual.py from the help of the program.
_radoscls() {
    # of NAME=FILE, bash gives FILE as the word to complete
    local word=${2-${COMP_WORDS[COMP_CWORD]}} words="verify run test asm pack dis heads sim cluster help"
    COMPREPLY=()
    if [ "$COMP_CWORD" = 1 ]; then
        mapfile -t COMPREPLY < <(compgen -W "$words --help --version" -- "$word")
        return
    fi
    case ${COMP_WORDS[1]} in
        help)
            mapfile -t COMPREPLY < <(compgen -W "$words" -- "$word")
            return
            ;;
        verify) words="--all --loops --json --explain --help" ;;
        run) words="--caller --input --input-text --input-u64 --object --xattr --key --limits --loops --load --save --show --trace --json --explain --help" ;;
        test) words="--trace --loops --explain --help" ;;
        asm) words="--all --heads --budget --explain --help" ;;
        pack) words="--rules --heads --budget --explain --help" ;;
        dis) words="--slots --explain --help" ;;
        heads) words="--budget --help" ;;
        sim) words="--class --trace --objects --explain --help" ;;
        cluster) words="--class --show --stats --strict --explain --follow --help" ;;
        *) return ;;
    esac
    case ${COMP_WORDS[COMP_CWORD - 1]} in
        --caller | --budget | --rules) return ;;
    esac
    case $word in
        -*) mapfile -t COMPREPLY < <(compgen -W "$words" -- "$word") ;;
        @*) mapfile -t COMPREPLY < <(compgen -P @ -f -- "${word#@}") ;;
        *)
            mapfile -t COMPREPLY < <(compgen -f -- "$word")
            compopt -o filenames 2> /dev/null
            ;;
    esac
}
complete -F _radoscls radoscls
