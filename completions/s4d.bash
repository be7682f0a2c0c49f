# Completes the words of s4d in bash, once this file is read:  . completions/s4d.bash
# completions/make made this file of its table.

# What is there so far: the command, how many of its operands come before the word that is being completed, and the option whose
# value that word is. `word` is what bash replaces of it, which begins after the last = or : of `whole`.
_s4d_read() {
    local part is_split='' is_ended='' words=('')
    for part in "${COMP_WORDS[@]:1:COMP_CWORD}"; do
        # bash splits --at=5 into three words, and others with = or : too.
        if [[ $is_split || $part == [=:] && ${words[-1]} ]]; then words[-1]+=$part; else words+=("$part"); fi
        if [[ $part == [=:] ]]; then is_split=1; else is_split=''; fi
    done
    whole=${words[-1]} command='' operands=0 option=''
    for part in "${words[@]:1:${#words[@]}-2}"; do
        if [[ $option ]]; then
            option=''
        elif [[ ! $is_ended && $part == -- ]]; then
            is_ended=1
        elif [[ ! $is_ended && $part == --@(window|tick|frames) ]]; then
            option=$part
        elif [[ ! $is_ended && $part == -* ]]; then
            continue
        elif [[ $command ]]; then
            operands=$((operands + 1))
        else
            command=$part
        fi
    done
    is_past_options=$is_ended
    if [[ ! $option && ! $is_ended && $whole == --@(window|tick|frames)=* ]]; then
        option=${whole%%=*} whole=${whole#*=}
    fi
    word=${whole##*[=:]}
}

# Completes the word to one of these.
_s4d_words() {
    mapfile -t COMPREPLY < <(compgen -W "$1" -- "$word")
}

_s4d_files() {
    mapfile -t COMPREPLY < <(compgen "$1" -- "$word")
    compopt -o filenames 2> /dev/null
}

# Completes to one of these words, which end with = or :, and after it to a file, or to a folder.
_s4d_then() {
    if [[ $whole == *[=:]* ]]; then
        _s4d_files "$2"
    else
        _s4d_words "$1"
        compopt -o nospace 2> /dev/null
    fi
}

_s4d_options() {
    case "$command" in
        new) echo --window ;;
        run) echo --tick --no-upkeep ;;
        pipe) echo --frames --window --tick ;;
    esac
}

_s4d_value() {
    return
}

_s4d_operand() {
    case "$command:$operands" in
        :*) _s4d_words 'new verify at migrate run pipe' ;;
        new:0 | verify:0 | at:0 | migrate:0 | migrate:1 | run:0) _s4d_files -f ;;
        run:*) _s4d_then 'client: admin:' -f ;;
        pipe:0) _s4d_words 'client admin' ;;
    esac
}

_s4d() {
    local command operands option is_past_options whole word
    COMPREPLY=()
    _s4d_read
    if [[ $option ]]; then
        _s4d_value
    elif [[ $whole == -* && ! $is_past_options && $command != help ]]; then
        _s4d_words "$(_s4d_options)"
    else
        _s4d_operand
    fi
}

complete -F _s4d s4d
