#!/usr/bin/env bash
# Runs the tests of the Python package and of the examples over the built programs, the story, a service, one stream on two
# drives, and the sweep of limits, side by side, and ends with one line.
#     test.sh [--quick]    S4D names the program, else it is the one that `rt ci` or `rt run` left in crates/s4d/out; --quick leaves
#                          out the sweep of limits, which takes more than a minute
set -uo pipefail
. "$(dirname "$0")/program.sh"
help_where_asked "$@"
if [ -z "${S4D:-}" ] && [ ! -x "$proved" ]; then
    echo "examples: FAILED: no program in crates/s4d/out; build it by (cd crates/s4d && rt run -- pipe client < /dev/null)"
    exit 1
fi
find_program
export S4D=$program
cd "$here" || exit 1
also=(--also "./serve.sh 2>&1 | diff serve.txt -" --also "./story.sh 2>&1 | diff story.txt -" --also ./twice.sh)
swept='no limits'
if [ "${1:-}" != --quick ]; then
    also=(--also "python3 -B limits.py first_requests.hex '$program' ${S4:+'$S4'}" "${also[@]}")
    swept='limits: 0 faults'
fi
log=$(mktemp)
python3 -B "$top/python/tests/side_by_side.py" "${also[@]}" "$top"/python/tests/test_*.py test_*.py > "$log" 2>&1 &
runner=$!
trap 'kill "$runner" 2> /dev/null; wait; rm -f "$log"' EXIT
if wait "$runner"; then
    echo "examples: $(awk '/^Ran / { ran = $2 } END { print ran }' "$log") tests, $swept, ok"
else
    cat "$log"
    echo "examples: FAILED"
    exit 1
fi
