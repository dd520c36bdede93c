# Completion of wheelsync for bash: source this file. Made by bench/pages.py.
_wheelsync() {
    local word=${COMP_WORDS[COMP_CWORD]} words=
    if [ "$COMP_CWORD" -eq 1 ]; then
        COMPREPLY=($(compgen -W "replay import size compile audit trace check stim self help --help --version" -- "$word"))
        return
    fi
    case ${COMP_WORDS[1]} in
        replay) words="--time --crank --cam1 --cam2 --cert --help" ;;
        import) words="--help" ;;
        size) words="--help" ;;
        compile) words="--help" ;;
        audit) words="--help" ;;
        trace) words="--time --crank --cam1 --cam2 --help" ;;
        check) words="--time --crank --cam1 --cam2 --help" ;;
        stim) words="--help" ;;
        self) words="--help" ;;
    esac
    case ${COMP_WORDS[1]}.$COMP_CWORD in
        stim.3) COMPREPLY=($(compgen -W "vcd csv" -- "$word")); return ;;
        import.3 | stim.4 | stim.5 | self.3 | self.4) return ;;
    esac
    case $word in
        -*) COMPREPLY=($(compgen -W "$words" -- "$word")) ;;
        *) COMPREPLY=($(compgen -f -- "$word")) ;;
    esac
}
complete -o filenames -F _wheelsync wheelsync ./wheelsync
