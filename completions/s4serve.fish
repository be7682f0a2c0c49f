# Completes the words of s4serve in fish, once this file is read.
# completions/make made this file of its table.

# Whether the word that is completed is of this command and, where a number is given, its operand of that number from 0 on; or at
# least that one, where + comes after it.
function __s4serve_is
    set -l command ''
    set -l operands 0
    set -l is_value ''
    set -l is_ended ''
    for word in (commandline -opc)[2..]
        if test -n "$is_value"
            set is_value ''
        else if test -z "$is_ended"; and test "$word" = --
            set is_ended 1
        else if test -z "$is_ended"; and contains -- "$word" --create --keep --leap --patience --reserve --door
            set is_value 1
        else if test -z "$is_ended"; and string match -q -- '-*' "$word"
            continue
        else
            set operands (math $operands + 1)
        end
    end
    if test "$command" != "$argv[1]"
        return 1
    else if test "$argv[3]" = +
        test $operands -ge $argv[2]
    else
        test -z "$argv[2]"; or test $operands = "$argv[2]"
    end
end

# One of these words, which end with = or :, and after it a file, or a folder.
function __s4serve_then
    set -l token (string replace -r -- '^--[a-z-]*=' '' (commandline -ct))
    set -l front (string replace -r -- '[^=:]*$' '' "$token")
    if test -z "$front"
        string join \n -- $argv[2..]
    else if test $argv[1] = folder
        printf '%s\n' $front(__fish_complete_directories (string replace -r -- '.*[=:]' '' "$token") '')
    else
        printf '%s\n' $front(__fish_complete_path (string replace -r -- '.*[=:]' '' "$token") '')
    end
end

complete -c s4serve -f
complete -c s4serve -n "__s4serve_is ''" -l create -r -f -d 'Makes a new drive of this many frames, 24 to 1024'
complete -c s4serve -n "__s4serve_is ''" -l keep -r -f -d 'How long a drive that is made keeps the past'
complete -c s4serve -n "__s4serve_is ''" -l leap -r -f -d 'Begins though the image\'s clock is this much earlier'
complete -c s4serve -n "__s4serve_is ''" -l patience -r -f -d 'How long a service that is stopped tries to keep its drive'
complete -c s4serve -n "__s4serve_is ''" -l reserve -r -f -d 'Blocks of the drive\'s room that clients leave to administrators'
complete -c s4serve -n "__s4serve_is ''" -l door -r -f -a '(__s4serve_then folder client= admin=)' -d 'A folder at whose FIFO clients or administrators come'
complete -c s4serve -n "__s4serve_is ''" -l help -d 'Prints what the program does, or a command'
complete -c s4serve -n "__s4serve_is ''" -l version -d 'Prints the version'
complete -c s4serve -n "__s4serve_is '' 0" -F
