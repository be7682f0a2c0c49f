# Completes the words of s4serve in bash, once this file is read:  . completions/s4serve.bash
# completions/make made this file of its table.

# What is there so far: the command, how many of its operands come before the word that is being completed, and the option whose
# value that word is. `word` is what bash replaces of it, which begins after the last = or : of `whole`.
_s4serve_read() {
    local part is_split='' is_ended='' words=('')
    for part in "${COMP_WORDS[@]:1:COMP_CWORD}"; do
        # bash splits --at=5 into three words, and others with = or : too.
        if [[ $is_split || $part == [=:] && ${words[-1]} ]]; then words[-1]+=$part; else words+=("$part"); fi
        if [[ $part == [=:] ]]; then is_split=1; else is_split=''; fi
    done
    whole=${words[-1]} command='' operands=0 option=''
    for part in "${words[@]:1:${#words[@]}-2}"; do
        if [[ $option ]]; then
            option=''
        elif [[ ! $is_ended && $part == -- ]]; then
            is_ended=1
        elif [[ ! $is_ended && $part == --@(create|keep|leap|patience|reserve|door) ]]; then
            option=$part
        elif [[ ! $is_ended && $part == -* ]]; then
            continue
        elif [[ 1 ]]; then
            operands=$((operands + 1))
        else
            command=$part
        fi
    done
    is_past_options=$is_ended
    if [[ ! $option && ! $is_ended && $whole == --@(create|keep|leap|patience|reserve|door)=* ]]; then
        option=${whole%%=*} whole=${whole#*=}
    fi
    word=${whole##*[=:]}
}

# Completes the word to one of these.
_s4serve_words() {
    mapfile -t COMPREPLY < <(compgen -W "$1" -- "$word")
}

_s4serve_files() {
    mapfile -t COMPREPLY < <(compgen "$1" -- "$word")
    compopt -o filenames 2> /dev/null
}

# Completes to one of these words, which end with = or :, and after it to a file, or to a folder.
_s4serve_then() {
    if [[ $whole == *[=:]* ]]; then
        _s4serve_files "$2"
    else
        _s4serve_words "$1"
        compopt -o nospace 2> /dev/null
    fi
}

_s4serve_options() {
    case "$command" in
        '') echo --create --keep --leap --patience --reserve --door --help --version ;;
    esac
}

_s4serve_value() {
    case "$command$option" in
        --door) _s4serve_then 'client= admin=' -d ;;
    esac
}

_s4serve_operand() {
    case "$command:$operands" in
        :0) _s4serve_files -f ;;
    esac
}

_s4serve() {
    local command operands option is_past_options whole word
    COMPREPLY=()
    _s4serve_read
    if [[ $option ]]; then
        _s4serve_value
    elif [[ $whole == -* && ! $is_past_options && $command != help ]]; then
        _s4serve_words "$(_s4serve_options)"
    else
        _s4serve_operand
    fi
}

complete -F _s4serve s4serve
