# Completion of capweave's words, for bash (source it) and zsh (after `autoload -U bashcompinit && bashcompinit`).
_capweave() {
    local word=${COMP_WORDS[COMP_CWORD]}
    if [ "$COMP_CWORD" -eq 1 ]; then
        COMPREPLY=($(compgen -W "weave procs check refute audit reaudit run world values play graph sample" -- "$word"))
        return
    fi
    case ${COMP_WORDS[1]} in
    graph) COMPREPLY=($(compgen -f -X '!*.c' -- "$word")) ;;
    weave | procs | check | refute | audit | reaudit | run | world | values | play)
        if [ "$COMP_CWORD" -eq 2 ]; then
            COMPREPLY=($(compgen -f -X '!*.toml' -- "$word"))
        else
            COMPREPLY=($(compgen -f -- "$word"))
        fi
        ;;
    esac
}
complete -o filenames -F _capweave capweave

# The companion: its own words and options, then those of capweave. The place of a word is counted without options and what belongs to them.
_capweave_files() {
    COMPREPLY=($(compgen -f -X "!$1" -- "$2") $(compgen -d -- "$2"))
}

_capweave_tell() {
    local word=${COMP_WORDS[COMP_CWORD]} before=${COMP_WORDS[COMP_CWORD - 1]} place=0 said="" kind="" index
    case $before in
    --format) COMPREPLY=($(compgen -W "text json sarif" -- "$word")); return ;;
    --color) COMPREPLY=($(compgen -W "auto always never" -- "$word")); return ;;
    --as) COMPREPLY=($(compgen -W "svg dot mermaid html" -- "$word")); return ;;
    --theme) COMPREPLY=($(compgen -W "auto light dark" -- "$word")); return ;;
    -o | --source) COMPREPLY=($(compgen -f -- "$word")); return ;;
    esac
    for ((index = 1; index < COMP_CWORD; index++)); do
        case ${COMP_WORDS[index]} in
        --format | --color | --as | --theme | --source | -o) index=$((index + 1)) ;;
        -*) ;;
        *)
            place=$((place + 1))
            if [ $place -eq 1 ]; then said=${COMP_WORDS[index]}; fi
            if [ $place -eq 2 ]; then kind=${COMP_WORDS[index]}; fi
            ;;
        esac
    done
    if [[ $word == -* ]]; then
        case $said in
        "") COMPREPLY=($(compgen -W "--format --color --help --version" -- "$word")) ;;
        weave | procs) COMPREPLY=($(compgen -W "-o --quiet --format --color --help" -- "$word")) ;;
        audit | form) COMPREPLY=($(compgen -W "-o --format --color --help" -- "$word")) ;;
        world | values) COMPREPLY=($(compgen -W "--source --format --color --help" -- "$word")) ;;
        warn) COMPREPLY=($(compgen -W "--strict --format --color --help" -- "$word")) ;;
        draw) COMPREPLY=($(compgen -W "-o --as --theme --format --color --help" -- "$word")) ;;
        explain | same | reaudit) COMPREPLY=($(compgen -W "--format --color --help" -- "$word")) ;;
        esac
        return
    fi
    case $said:$place in
    :0) COMPREPLY=($(compgen -W "weave explain warn same audit reaudit procs form world values draw check refute run play graph sample" -- "$word")) ;;
    weave:1 | procs:1 | form:1 | explain:1 | warn:1 | check:1 | refute:1 | audit:1 | reaudit:1 | run:1 | play:1 | world:1 | values:1) _capweave_files '*.toml' "$word" ;;
    graph:1 | audit:2 | reaudit:2 | weave:2 | procs:2 | form:2 | explain:2 | warn:2 | same:[12]) _capweave_files '*.c' "$word" ;;
    draw:1) COMPREPLY=($(compgen -W "graph table strategy play" -- "$word")) ;;
    draw:2) if [ "$kind" = graph ]; then _capweave_files '*.c' "$word"; else _capweave_files '*.toml' "$word"; fi ;;
    *) COMPREPLY=($(compgen -f -- "$word")) ;;
    esac
}
complete -o filenames -F _capweave_tell capweave-tell

# The outlines of real C: words, files and one option; behind `--` come the compiler's flags.
_capweave_outline() {
    local word=${COMP_WORDS[COMP_CWORD]} place=0 said="" index
    for ((index = 1; index < COMP_CWORD; index++)); do
        case ${COMP_WORDS[index]} in
        --) COMPREPLY=($(compgen -f -- "$word")); return ;;
        -o) index=$((index + 1)) ;;
        *)
            place=$((place + 1))
            if [ $place -eq 1 ]; then said=${COMP_WORDS[index]}; fi
            ;;
        esac
    done
    if [ "${COMP_WORDS[COMP_CWORD - 1]}" = -o ]; then
        COMPREPLY=($(compgen -f -- "$word"))
        return
    fi
    if [[ $word == -* ]]; then
        case $said in
        "") COMPREPLY=($(compgen -W "--help --version" -- "$word")) ;;
        outline | weave) COMPREPLY=($(compgen -W "-o --" -- "$word")) ;;
        esac
        return
    fi
    case $said:$place in
    :0) COMPREPLY=($(compgen -W "outline weave same" -- "$word")) ;;
    weave:1) _capweave_files '*.toml' "$word" ;;
    outline:1 | weave:2 | same:[12]) _capweave_files '*.c' "$word" ;;
    esac
}
complete -o filenames -F _capweave_outline capweave-outline
