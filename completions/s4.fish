# Completes the words of s4 in fish, once this file is read.
# completions/make made this file of its table.

# Whether the word that is completed is of this command and, where a number is given, its operand of that number from 0 on; or at
# least that one, where + comes after it.
function __s4_is
    set -l command ''
    set -l operands 0
    set -l is_value ''
    set -l is_ended ''
    for word in (commandline -opc)[2..]
        if test -n "$is_value"
            set is_value ''
        else if test -z "$is_ended"; and test "$word" = --
            set is_ended 1
        else if test -z "$is_ended"; and contains -- "$word" --at --object --name --since --until --kind --limit --map --leap --frames --without --without-created-since
            set is_value 1
        else if test -z "$is_ended"; and string match -q -- '-*' "$word"
            continue
        else if test -z "$command"
            set command "$word"
        else
            set operands (math $operands + 1)
        end
    end
    if test "$command" != "$argv[1]"
        return 1
    else if test "$argv[3]" = +
        test $operands -ge $argv[2]
    else
        test -z "$argv[2]"; or test $operands = "$argv[2]"
    end
end

complete -c s4 -f
complete -c s4 -n "__s4_is ''" -a list -d 'Prints the objects that are live, by ascending number'
complete -c s4 -n "__s4_is ''" -a log -d 'Prints what was changed, by ascending moment'
complete -c s4 -n "__s4_is ''" -a audit -d 'Prints what was accepted, by ascending moment'
complete -c s4 -n "__s4_is ''" -a cat -d 'Prints the bytes of an object'
complete -c s4 -n "__s4_is ''" -a info -d 'Prints the numbers of an image'
complete -c s4 -n "__s4_is ''" -a diff -d 'Prints what differs between two moments'
complete -c s4 -n "__s4_is ''" -a export -d 'Writes the bytes of each object into a folder, with a manifest'
complete -c s4 -n "__s4_is ''" -a restore -d 'Makes the present what it was at a moment'
complete -c s4 -n "__s4_is ''" -a check -d 'Reads every version that can be read'
complete -c s4 -n "__s4_is ''" -a compact -d 'Cleans a drive, and gathers what is scattered'
complete -c s4 -n "__s4_is ''" -a copy -d 'Makes another image of the same versions, in other frames or without some objects'
complete -c s4 -n "__s4_is ''" -a salvage -d 'Writes what a damaged image still has of each object into a folder'
complete -c s4 -n "__s4_is ''" -a report -d 'Prints a page for browsers: the objects, what was changed, and what differs'
complete -c s4 -n "__s4_is ''" -a help -d 'Prints what a command does'
complete -c s4 -n "__s4_is ''" -l help -d 'Prints what the program does, or a command'
complete -c s4 -n "__s4_is ''" -l version -d 'Prints the version'
complete -c s4 -n "__s4_is help 0" -a list -d 'Prints the objects that are live, by ascending number'
complete -c s4 -n "__s4_is help 0" -a log -d 'Prints what was changed, by ascending moment'
complete -c s4 -n "__s4_is help 0" -a audit -d 'Prints what was accepted, by ascending moment'
complete -c s4 -n "__s4_is help 0" -a cat -d 'Prints the bytes of an object'
complete -c s4 -n "__s4_is help 0" -a info -d 'Prints the numbers of an image'
complete -c s4 -n "__s4_is help 0" -a diff -d 'Prints what differs between two moments'
complete -c s4 -n "__s4_is help 0" -a export -d 'Writes the bytes of each object into a folder, with a manifest'
complete -c s4 -n "__s4_is help 0" -a restore -d 'Makes the present what it was at a moment'
complete -c s4 -n "__s4_is help 0" -a check -d 'Reads every version that can be read'
complete -c s4 -n "__s4_is help 0" -a compact -d 'Cleans a drive, and gathers what is scattered'
complete -c s4 -n "__s4_is help 0" -a copy -d 'Makes another image of the same versions, in other frames or without some objects'
complete -c s4 -n "__s4_is help 0" -a salvage -d 'Writes what a damaged image still has of each object into a folder'
complete -c s4 -n "__s4_is help 0" -a report -d 'Prints a page for browsers: the objects, what was changed, and what differs'
complete -c s4 -n "__s4_is help 0" -a help -d 'Prints what a command does'
complete -c s4 -n "__s4_is 'list'" -l at -r -f -d 'At this moment, in place of the clock\'s'
complete -c s4 -n "__s4_is 'list'" -l deleted -d 'Also those that were deleted before'
complete -c s4 -n "__s4_is 'list'" -l versions -d 'Each with all its versions up to the moment'
complete -c s4 -n "__s4_is 'list'" -l contents -d 'Each version with all its bytes, in hex'
complete -c s4 -n "__s4_is 'list'" -l moments -d 'Prints moments as numbers, also where they are dates'
complete -c s4 -n "__s4_is 'list'" -l json -d 'Prints one JSON object a line'
complete -c s4 -n "__s4_is 'list'" -l help -d 'Prints what the program does, or a command'
complete -c s4 -n "__s4_is 'list'" -l version -d 'Prints the version'
complete -c s4 -n "__s4_is 'list' 0" -F
complete -c s4 -n "__s4_is 'log'" -l object -r -f -d 'Of this object alone'
complete -c s4 -n "__s4_is 'log'" -l name -r -f -d 'Of the one object alone whose attribute is this text'
complete -c s4 -n "__s4_is 'log'" -l since -r -f -d 'From this moment on'
complete -c s4 -n "__s4_is 'log'" -l until -r -f -d 'Up to this moment'
complete -c s4 -n "__s4_is 'log'" -l kind -r -f -a 'made deleted written cut lengthened attribute touched' -d 'Changes of this kind'
complete -c s4 -n "__s4_is 'log'" -l limit -r -f -d 'At most this many changes'
complete -c s4 -n "__s4_is 'log'" -l by-object -d 'By ascending object, and then by moment'
complete -c s4 -n "__s4_is 'log'" -l reverse -d 'In the opposite order'
complete -c s4 -n "__s4_is 'log'" -l stat -d 'Prints one line an object: how many changes, and when'
complete -c s4 -n "__s4_is 'log'" -l moments -d 'Prints moments as numbers, also where they are dates'
complete -c s4 -n "__s4_is 'log'" -l json -d 'Prints one JSON object a line'
complete -c s4 -n "__s4_is 'log'" -l help -d 'Prints what the program does, or a command'
complete -c s4 -n "__s4_is 'log'" -l version -d 'Prints the version'
complete -c s4 -n "__s4_is 'log' 0" -F
complete -c s4 -n "__s4_is 'audit'" -l object -r -f -d 'Of this object alone'
complete -c s4 -n "__s4_is 'audit'" -l since -r -f -d 'From this moment on'
complete -c s4 -n "__s4_is 'audit'" -l until -r -f -d 'Up to this moment'
complete -c s4 -n "__s4_is 'audit'" -l kind -r -f -a 'create delete write truncate setattr setwindow flush flusho' -d 'Of this kind'
complete -c s4 -n "__s4_is 'audit'" -l limit -r -f -d 'At most this many changes'
complete -c s4 -n "__s4_is 'audit'" -l moments -d 'Prints moments as numbers, also where they are dates'
complete -c s4 -n "__s4_is 'audit'" -l json -d 'Prints one JSON object a line'
complete -c s4 -n "__s4_is 'audit'" -l help -d 'Prints what the program does, or a command'
complete -c s4 -n "__s4_is 'audit'" -l version -d 'Prints the version'
complete -c s4 -n "__s4_is 'audit' 0" -F
complete -c s4 -n "__s4_is 'cat'" -l at -r -f -d 'At this moment, in place of the clock\'s'
complete -c s4 -n "__s4_is 'cat'" -l name -r -f -d 'The one object whose attribute is this text'
complete -c s4 -n "__s4_is 'cat'" -l help -d 'Prints what the program does, or a command'
complete -c s4 -n "__s4_is 'cat'" -l version -d 'Prints the version'
complete -c s4 -n "__s4_is 'cat' 0" -F
complete -c s4 -n "__s4_is 'info'" -l moments -d 'Prints moments as numbers, also where they are dates'
complete -c s4 -n "__s4_is 'info'" -l json -d 'Prints one JSON object'
complete -c s4 -n "__s4_is 'info'" -l help -d 'Prints what the program does, or a command'
complete -c s4 -n "__s4_is 'info'" -l version -d 'Prints the version'
complete -c s4 -n "__s4_is 'info' 0" -F
complete -c s4 -n "__s4_is 'diff'" -l object -r -f -d 'Of this object alone'
complete -c s4 -n "__s4_is 'diff'" -l name -r -f -d 'Of the one object alone whose attribute is this text'
complete -c s4 -n "__s4_is 'diff'" -l patch -d 'Also the bytes that differ'
complete -c s4 -n "__s4_is 'diff'" -l text -d 'Also the lines that differ, where both versions are text'
complete -c s4 -n "__s4_is 'diff'" -l raw -d 'Lines as they are, with what terminals obey'
complete -c s4 -n "__s4_is 'diff'" -l moments -d 'Prints moments as numbers, also where they are dates'
complete -c s4 -n "__s4_is 'diff'" -l json -d 'Prints one JSON object a line'
complete -c s4 -n "__s4_is 'diff'" -l help -d 'Prints what the program does, or a command'
complete -c s4 -n "__s4_is 'diff'" -l version -d 'Prints the version'
complete -c s4 -n "__s4_is 'diff' 0" -F
complete -c s4 -n "__s4_is 'export'" -l at -r -f -d 'At this moment, in place of the clock\'s'
complete -c s4 -n "__s4_is 'export'" -l help -d 'Prints what the program does, or a command'
complete -c s4 -n "__s4_is 'export'" -l version -d 'Prints the version'
complete -c s4 -n "__s4_is 'export' 0" -F
complete -c s4 -n "__s4_is 'export' 1" -f -a '(__fish_complete_directories (commandline -ct) "")'
complete -c s4 -n "__s4_is 'restore'" -l at -r -f -d 'The moment'
complete -c s4 -n "__s4_is 'restore'" -l object -r -f -d 'This object alone; may be given again'
complete -c s4 -n "__s4_is 'restore'" -l name -r -f -d 'Of the one object alone whose attribute is this text'
complete -c s4 -n "__s4_is 'restore'" -l map -r -F -d 'What an earlier restore printed'
complete -c s4 -n "__s4_is 'restore'" -l dry-run -d 'Prints what would be done, and does nothing'
complete -c s4 -n "__s4_is 'restore'" -l flush -d 'Where a journal is full, hides the fewest of its versions'
complete -c s4 -n "__s4_is 'restore'" -l skip -d 'Leaves out objects that can\'t be restored'
complete -c s4 -n "__s4_is 'restore'" -l keep-newer -d 'Keeps objects that were made since the moment'
complete -c s4 -n "__s4_is 'restore'" -l to-nothing -d 'Restores also where no object is left'
complete -c s4 -n "__s4_is 'restore'" -l leap -r -f -d 'Restores though the image\'s clock is this much earlier'
complete -c s4 -n "__s4_is 'restore'" -l json -d 'Prints one JSON object a line'
complete -c s4 -n "__s4_is 'restore'" -l help -d 'Prints what the program does, or a command'
complete -c s4 -n "__s4_is 'restore'" -l version -d 'Prints the version'
complete -c s4 -n "__s4_is 'restore' 0" -F
complete -c s4 -n "__s4_is 'check'" -l json -d 'Prints one JSON object'
complete -c s4 -n "__s4_is 'check'" -l help -d 'Prints what the program does, or a command'
complete -c s4 -n "__s4_is 'check'" -l version -d 'Prints the version'
complete -c s4 -n "__s4_is 'check' 0" -F
complete -c s4 -n "__s4_is 'compact'" -l json -d 'Prints one JSON object'
complete -c s4 -n "__s4_is 'compact'" -l help -d 'Prints what the program does, or a command'
complete -c s4 -n "__s4_is 'compact'" -l version -d 'Prints the version'
complete -c s4 -n "__s4_is 'compact' 0" -F
complete -c s4 -n "__s4_is 'copy'" -l frames -r -f -d 'In this many frames, 24 to 1024'
complete -c s4 -n "__s4_is 'copy'" -l without -r -f -d 'Without this object and its past; may be given again'
complete -c s4 -n "__s4_is 'copy'" -l without-created-since -r -f -d 'Without the objects that were made at this moment or later'
complete -c s4 -n "__s4_is 'copy'" -l json -d 'Prints one JSON object'
complete -c s4 -n "__s4_is 'copy'" -l help -d 'Prints what the program does, or a command'
complete -c s4 -n "__s4_is 'copy'" -l version -d 'Prints the version'
complete -c s4 -n "__s4_is 'copy' 0" -F
complete -c s4 -n "__s4_is 'copy' 1" -F
complete -c s4 -n "__s4_is 'salvage'" -l json -d 'Prints one JSON object'
complete -c s4 -n "__s4_is 'salvage'" -l help -d 'Prints what the program does, or a command'
complete -c s4 -n "__s4_is 'salvage'" -l version -d 'Prints the version'
complete -c s4 -n "__s4_is 'salvage' 0" -F
complete -c s4 -n "__s4_is 'salvage' 1" -f -a '(__fish_complete_directories (commandline -ct) "")'
complete -c s4 -n "__s4_is 'report'" -l since -r -f -d 'Differences since this moment'
complete -c s4 -n "__s4_is 'report'" -l help -d 'Prints what the program does, or a command'
complete -c s4 -n "__s4_is 'report'" -l version -d 'Prints the version'
complete -c s4 -n "__s4_is 'report' 0" -F
