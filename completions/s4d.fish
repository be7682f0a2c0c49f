# Completes the words of s4d in fish, once this file is read.
# completions/make made this file of its table.

# Whether the word that is completed is of this command and, where a number is given, its operand of that number from 0 on; or at
# least that one, where + comes after it.
function __s4d_is
    set -l command ''
    set -l operands 0
    set -l is_value ''
    set -l is_ended ''
    for word in (commandline -opc)[2..]
        if test -n "$is_value"
            set is_value ''
        else if test -z "$is_ended"; and test "$word" = --
            set is_ended 1
        else if test -z "$is_ended"; and contains -- "$word" --window --tick --frames
            set is_value 1
        else if test -z "$is_ended"; and string match -q -- '-*' "$word"
            continue
        else if test -z "$command"
            set command "$word"
        else
            set operands (math $operands + 1)
        end
    end
    if test "$command" != "$argv[1]"
        return 1
    else if test "$argv[3]" = +
        test $operands -ge $argv[2]
    else
        test -z "$argv[2]"; or test $operands = "$argv[2]"
    end
end

# One of these words, which end with = or :, and after it a file, or a folder.
function __s4d_then
    set -l token (string replace -r -- '^--[a-z-]*=' '' (commandline -ct))
    set -l front (string replace -r -- '[^=:]*$' '' "$token")
    if test -z "$front"
        string join \n -- $argv[2..]
    else if test $argv[1] = folder
        printf '%s\n' $front(__fish_complete_directories (string replace -r -- '.*[=:]' '' "$token") '')
    else
        printf '%s\n' $front(__fish_complete_path (string replace -r -- '.*[=:]' '' "$token") '')
    end
end

complete -c s4d -f
complete -c s4d -n "__s4d_is ''" -a new -d 'Writes the image of an empty drive'
complete -c s4d -n "__s4d_is ''" -a verify -d 'Says what an image holds, or what is damaged'
complete -c s4d -n "__s4d_is ''" -a at -d 'Writes an object\'s bytes as they were'
complete -c s4d -n "__s4d_is ''" -a migrate -d 'Makes a new image of one of an earlier version'
complete -c s4d -n "__s4d_is ''" -a run -d 'Serves sessions, from files into files, and saves the image'
complete -c s4d -n "__s4d_is ''" -a pipe -d 'Serves one session over a new drive in memory'
complete -c s4d -n "__s4d_is 'new'" -l window -r -f -d 'How many moments of the past are kept'
complete -c s4d -n "__s4d_is 'new' 0" -F
complete -c s4d -n "__s4d_is 'verify' 0" -F
complete -c s4d -n "__s4d_is 'at' 0" -F
complete -c s4d -n "__s4d_is 'migrate' 0" -F
complete -c s4d -n "__s4d_is 'migrate' 1" -F
complete -c s4d -n "__s4d_is 'run'" -l tick -r -f -d 'How many moments each request takes'
complete -c s4d -n "__s4d_is 'run'" -l no-upkeep -d 'Nothing is cleaned or gathered'
complete -c s4d -n "__s4d_is 'run' 0" -F
complete -c s4d -n "__s4d_is 'run' 1 +" -f -a '(__s4d_then file client: admin:)'
complete -c s4d -n "__s4d_is 'pipe'" -l frames -r -f -d 'Frames of the drive, 24 to 1024'
complete -c s4d -n "__s4d_is 'pipe'" -l window -r -f -d 'How many moments of the past are kept'
complete -c s4d -n "__s4d_is 'pipe'" -l tick -r -f -d 'How many moments each request takes'
complete -c s4d -n "__s4d_is 'pipe' 0" -f -a 'client admin'
