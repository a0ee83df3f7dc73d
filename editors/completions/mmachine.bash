# Completion of the words of mmachine for bash, 4 or later.

_mmachine() {
    local word=${COMP_WORDS[COMP_CWORD]} place=$COMP_CWORD
    COMPREPLY=()
    if [ "$place" = 1 ]; then
        COMPREPLY=($(compgen -W 'run trace log solo grants why explore keeps extract asm link dis debug save continue gen soak migrate holders sweep net' -- "$word"))
        return
    fi
    # Which words of the command are files; one of no number and beyond all numbers is none.
    case "${COMP_WORDS[1]} $place" in
        'why 5') COMPREPLY=($(compgen -W 'touch write' -- "$word")) ;;
        'migrate 3') COMPREPLY=($(compgen -W 'plain split' -- "$word")) ;;
        'run '[24] | 'trace '[24] | 'log '[24] | 'save '[24] | 'solo '[25] | 'grants 2' | 'why 2' | 'explore 2' | 'keeps 2' | 'extract 2' | 'asm 2' | 'dis 2' | 'debug '[23] | \
            'continue '[235] | 'migrate 2' | 'holders 2' | 'sweep 2' | 'link '[2-9] | 'link 1'[0-7] | 'net '[235-9] | 'net 1'[0-2])
            # The shell's own completion of files, which knows blanks and quotes.
            compopt -o default ;;
    esac
}

complete -F _mmachine mmachine
