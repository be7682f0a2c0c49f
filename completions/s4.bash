# Completes the words of s4 in bash, once this file is read:  . completions/s4.bash
# completions/make made this file of its table.

# What is there so far: the command, how many of its operands come before the word that is being completed, and the option whose
# value that word is. `word` is what bash replaces of it, which begins after the last = or : of `whole`.
_s4_read() {
    local part is_split='' is_ended='' words=('')
    for part in "${COMP_WORDS[@]:1:COMP_CWORD}"; do
        # bash splits --at=5 into three words, and others with = or : too.
        if [[ $is_split || $part == [=:] && ${words[-1]} ]]; then words[-1]+=$part; else words+=("$part"); fi
        if [[ $part == [=:] ]]; then is_split=1; else is_split=''; fi
    done
    whole=${words[-1]} command='' operands=0 option=''
    for part in "${words[@]:1:${#words[@]}-2}"; do
        if [[ $option ]]; then
            option=''
        elif [[ ! $is_ended && $part == -- ]]; then
            is_ended=1
        elif [[ ! $is_ended && $part == --@(at|object|name|since|until|kind|limit|map|leap|frames|without|without-created-since) ]]; then
            option=$part
        elif [[ ! $is_ended && $part == -* ]]; then
            continue
        elif [[ $command ]]; then
            operands=$((operands + 1))
        else
            command=$part
        fi
    done
    is_past_options=$is_ended
    if [[ ! $option && ! $is_ended && $whole == --@(at|object|name|since|until|kind|limit|map|leap|frames|without|without-created-since)=* ]]; then
        option=${whole%%=*} whole=${whole#*=}
    fi
    word=${whole##*[=:]}
}

# Completes the word to one of these.
_s4_words() {
    mapfile -t COMPREPLY < <(compgen -W "$1" -- "$word")
}

_s4_files() {
    mapfile -t COMPREPLY < <(compgen "$1" -- "$word")
    compopt -o filenames 2> /dev/null
}

_s4_options() {
    case "$command" in
        list) echo --at --deleted --versions --contents --moments --json --help --version ;;
        log) echo --object --name --since --until --kind --limit --by-object --reverse --stat --moments --json --help --version ;;
        audit) echo --object --since --until --kind --limit --moments --json --help --version ;;
        cat) echo --at --name --help --version ;;
        info) echo --moments --json --help --version ;;
        diff) echo --object --name --patch --text --raw --moments --json --help --version ;;
        export) echo --at --help --version ;;
        restore) echo --at --object --name --map --dry-run --flush --skip --keep-newer --to-nothing --leap --json --help --version ;;
        check | compact | salvage) echo --json --help --version ;;
        copy) echo --frames --without --without-created-since --json --help --version ;;
        report) echo --since --help --version ;;
        '') echo --help --version ;;
    esac
}

_s4_value() {
    case "$command$option" in
        log--kind) _s4_words 'made deleted written cut lengthened attribute touched' ;;
        audit--kind) _s4_words 'create delete write truncate setattr setwindow flush flusho' ;;
        restore--map) _s4_files -f ;;
    esac
}

_s4_operand() {
    case "$command:$operands" in
        :* | help:0) _s4_words 'list log audit cat info diff export restore check compact copy salvage report help' ;;
        list:0 | log:0 | audit:0 | cat:0 | info:0 | diff:0 | export:0 | restore:0 | check:0 | compact:0 | copy:0 | copy:1 | salvage:0 | report:0) _s4_files -f ;;
        export:1 | salvage:1) _s4_files -d ;;
    esac
}

_s4() {
    local command operands option is_past_options whole word
    COMPREPLY=()
    _s4_read
    if [[ $option ]]; then
        _s4_value
    elif [[ $whole == -* && ! $is_past_options && $command != help ]]; then
        _s4_words "$(_s4_options)"
    else
        _s4_operand
    fi
}

complete -F _s4 s4
