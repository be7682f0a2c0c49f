#!/usr/bin/env bash
# Serves one stream of requests on two new drives, and compares the images and the replies byte by byte.
#     twice.sh [FILE.hex]     first_requests.hex where none is named
# S4D names the program, else it is the one that `rt ci` or `rt run` left, else an unproved build, which is made once.
set -euo pipefail
. "$(dirname "$0")/program.sh"
help_where_asked "$@"
need_python
file=$(realpath "${1:-$here/first_requests.hex}")
find_or_build_program
folder=$(mktemp -d)
trap 'rm -rf "$folder"' EXIT
cd "$folder"
python3 -B "$here/hex.py" bytes "$file" > requests.bin
for name in one two; do
    "$program" new "$name.image" 24
    "$program" run --no-upkeep "$name.image" "client:requests.bin:$name.out"
done
cmp one.out two.out
cmp one.image two.image
echo "$me: equal replies, $(wc -c < one.out) bytes, and equal images, $(wc -c < one.image) bytes"
