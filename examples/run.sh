#!/usr/bin/env bash
# Runs `s4d pipe` on an example, and shows each request with its comment and its reply.
#     run.sh [FILE.hex [ROLE [OPTION..]]]     such as: run.sh examples/first_requests.hex client --tick 0 --window 1000
# S4D names the program, else it is the one that `rt ci` or `rt run` left, else an unproved build, which is made once.
set -euo pipefail
. "$(dirname "$0")/program.sh"
help_where_asked "$@"
need_python
file=$(realpath "${1:-$here/first_requests.hex}")
role=${2:-client}
shift $(($# < 2 ? $# : 2))
find_or_build_program
echo "$me: running $kind, $program" >&2
exec python3 -B "$here/hex.py" session "$file" "$program" pipe "$@" "$role"
