#!/usr/bin/env bash
# Plays a story over fresh files: an owner makes two objects, an intruder overwrites one and deletes the other, and an
# administrator restores both from what they held before, hides the intruder's versions, and asks what was accepted.
#     story.sh        S4D names the program, else the one that `rt ci` or `rt run` left, else an unproved build, which is
#                     made once and kept: about a minute
set -euo pipefail
. "$(dirname "$0")/program.sh"
help_where_asked "$@"
need_python
find_or_build_program
[ "$kind" != "an unproved build" ] || echo "$me: running $kind, $program" >&2
folder=$(mktemp -d)
trap 'rm -rf "$folder"' EXIT
cd "$folder"

run() {
    echo "\$ s4d $*"
    "$program" "$@"
}

# Makes a file of requests of a file in hex, which is shown. Serves it as one session of a role, with no upkeep and a tick of 0, so
# that only changes move the clock, and shows the replies.
session() {
    echo "\$ examples/hex.py bytes examples/story_$2.hex > $2.in"
    python3 -B "$here/hex.py" bytes "$here/story_$2.hex" > "$2.in"
    sed '/^#/d;/^$/d;s/^/  > /' "$here/story_$2.hex"
    run run --tick 0 --no-upkeep drive.image "$1:$2.in:$2.out"
    sed 's/^/  < /' <(python3 -B "$here/hex.py" replies < "$2.out")
}

# The bytes of an object at a moment, or the refusal.
show() {
    run at drive.image "$1" "$2" && echo || echo "(status $?)"
}

echo "# A new drive"
run new drive.image 24
run verify drive.image
echo
echo "# BEFORE. Its owner makes two objects"
session client owner
show 1 4
show 2 4
echo
echo "# AFTER. An intruder with a client's rights overwrites the first and deletes the second, but can't hide what was there"
session client intruder
show 1 6
show 2 6
echo
echo "# What was there before can still be read, by anybody who has the image"
show 1 4
show 2 4
echo
echo "# RESTORED. An administrator reads both at moment 4 and writes them back; a deleted object gets a new number"
session admin admin
show 1 9
show 3 9
echo
echo "# The intruder's version is kept too, and the image is whole"
show 1 6
run verify drive.image
echo
echo "# HIDDEN. An administrator hides the intruder's versions: the audit still has each change that was accepted, and the hiding too"
session admin hiding
show 1 6
show 1 9
run verify drive.image
