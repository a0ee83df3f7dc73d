# Completion of the words of mm for bash, 4 or later.

_mm() {
    local word=${COMP_WORDS[COMP_CWORD]} before=${COMP_WORDS[COMP_CWORD-1]} command='' at
    local commands='run debug trace view serve vcd symbols dis audit keeps why check-why explore holders sweep extract solo net save continue cc asm link migrate hex vectors grade lsp dap gen soak help'
    COMPREPLY=()
    for ((at = 1; at < COMP_CWORD; at++)); do
        case ${COMP_WORDS[at]} in
            --program) ((at++)) ;;
            -*) ;;
            *) command=${COMP_WORDS[at]}; break ;;
        esac
    done
    case $before in
        --program | --schedule | --names | --output | -s | -o) compopt -o default; return ;;
        --part) COMPREPLY=($(compgen -W 'memory frames pages slots all' -- "$word")); return ;;
        --meant) COMPREPLY=($(compgen -W 'NotPointer Perm Bounds Align NoPage Sync Illegal Priv DivZero Malformed Trap NoSlot OutFull' -- "$word")); return ;;
        --cycles | --states | --wrote | --threads | --turns | --groups | --from | --keeps | --seed | -n | -t | -g) return ;;
        --optimise | -O) COMPREPLY=($(compgen -W '0 1 2 3 s' -- "$word")); return ;;
        --heap | --stack | --quarantine | --clang | --slot | --prefix) return ;;
        --port | --host | --lesson | --token) return ;;
    esac
    if [ -z "$command" ]; then
        COMPREPLY=($(compgen -W "$commands --program --help --version" -- "$word"))
        return
    fi
    if [[ $word == -* ]]; then
        local options='--help'
        case $command in
            run | solo | continue) options="$options --cycles --schedule --turns --names --json --plain --optimise --heap --stack --quarantine --clang" ;;
            trace) options="$options --cycles --schedule --turns --names --json --optimise --heap --stack --quarantine --clang" ;;
            view) options="$options --cycles --schedule --turns --names --from --audit --keeps --output --optimise --heap --stack --quarantine --clang" ;;
            serve) options="$options --port --host --lesson --token --c" ;;
            vcd) options="$options --cycles --schedule --turns --names --from --output --optimise --heap --stack --quarantine --clang" ;;
            debug) options="$options --schedule --turns --names --optimise --heap --stack --quarantine --clang" ;;
            symbols) options="$options --names --json --optimise --heap --stack --quarantine --clang" ;;
            cc) options="$options --optimise --heap --stack --quarantine --clang --slot --prefix --output" ;;
            hex) options="$options --part --output --optimise --heap --stack --quarantine --clang" ;;
            vectors) options="$options --count --output" ;;
            explore) options="$options --states --meant --wrote --names --json --optimise --heap --stack --quarantine --clang" ;;
            grade) options="$options --json --csv --feedback --check --seed --optimise --heap --stack --quarantine --clang" ;;
            dis) options="$options --names" ;;
            holders | why) options="$options --names --optimise --heap --stack --quarantine --clang" ;;
            audit) options="$options --groups --doors-shut --names --json --optimise --heap --stack --quarantine --clang" ;;
            keeps) options="$options --threads --names --json --optimise --heap --stack --quarantine --clang" ;;
            sweep) options="$options --output --names --optimise --heap --stack --quarantine --clang" ;;
            save) options="$options --cycles --schedule --turns --output --optimise --heap --stack --quarantine --clang" ;;
            extract | link | migrate) options="$options --output --optimise --heap --stack --quarantine --clang" ;;
            asm | gen) options="$options --output" ;;
            net | soak) options="$options --cycles" ;;
        esac
        COMPREPLY=($(compgen -W "$options" -- "$word"))
        return
    fi
    case $command in
        help) COMPREPLY=($(compgen -W "$commands sources pointers schedules names ranges waiting idioms nets statuses json operations directives faults letters debugger" -- "$word")) ;;
        gen | soak | lsp | dap) ;;
        *)
            [ "$command" = migrate ] && COMPREPLY=($(compgen -W 'plain split' -- "$word"))
            [ "$command" = why ] || [ "$command" = check-why ] && COMPREPLY=($(compgen -W 'touch write' -- "$word"))
            # The shell's own completion of files, which knows blanks and quotes.
            compopt -o default ;;
    esac
}

complete -F _mm mm
