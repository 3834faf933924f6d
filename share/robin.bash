# Completion of robin for bash: source this file, or put it into /usr/share/bash-completion/completions as robin. Made by share/make.py.
_robin() {
    local word=${COMP_WORDS[COMP_CWORD]} options=
    if [ "$COMP_CWORD" -eq 1 ]; then
        COMPREPLY=($(compgen -W "validate show solve patterns explain part check prove bound resume audit rows values circle make trial --help --version" -- "$word"))
        return
    fi
    case ${COMP_WORDS[1]} in
        validate) options="--log --out --quiet" ;;
        show) options="--demands --form --log --most --out --quiet --width" ;;
        solve) options="--conflicts --from --log --moves --out --patterns --quiet --seconds --seed --tries" ;;
        patterns) options="--conflicts --log --out --quiet" ;;
        explain) options="--conflicts --log --out --quiet --seconds" ;;
        part) options="--log --out --quiet" ;;
        check) options="--log --out --quiet --room" ;;
        prove) options="--conflicts --floor --log --out --quiet --seconds" ;;
        bound) options="--log --out --quiet --room" ;;
        resume) options="--conflicts --from --log --moves --near --out --patterns --quiet --seconds --seed --tries" ;;
        audit) options="--log --out --quiet --room" ;;
        rows) options="--bound --log --objective --out --quiet" ;;
        values) options="--log --out --quiet" ;;
        circle) options="--log --out --quiet" ;;
        make) options="--log --out --quiet" ;;
        trial) options="--conflicts --log --moves --out --patterns --quiet --seconds --seed --tries" ;;
    esac
    case $word in
        -*) COMPREPLY=($(compgen -W "$options --help" -- "$word")) ;;
        *) COMPREPLY=($(compgen -f -- "$word")) ;;
    esac
}
complete -o filenames -F _robin robin
