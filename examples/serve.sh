#!/usr/bin/env bash
# Plays a service over a new drive: a client that came by a socket writes an object, the service is killed and begun again,
# and what it replied is there. Then an administrator stops it.
#     serve.sh        S4SERVE names the program, else the one that `rt ci` or `rt run` left, else an unproved build, which is
#                     made once and kept: about two minutes
set -euo pipefail
name=s4serve
. "$(dirname "$0")/program.sh"
help_where_asked "$@"
need_python
find_or_build_program
[ "$kind" != "an unproved build" ] || echo "$me: running $kind, $program" >&2
folder=$(mktemp -d)
service='' bridge=''
end() {
    for one in $bridge $service; do kill "$one" 2> /dev/null || true; done
    wait
    rm -rf "$folder"
}
trap end EXIT
cd "$folder"
export PYTHONPATH=$top/python PYTHONDONTWRITEBYTECODE=1

# Waits until a command succeeds, for two minutes at least: a service that was killed begins after ten seconds at most.
await() {
    for _ in $(seq 1200); do
        if "$@" 2> /dev/null; then return; fi
        sleep 0.1
    done
    cat service.said bridge.said >&2
    fail 1 "nothing came of: $*"
}

# Begins the service, with these words before those for its doors.
serve() {
    echo "\$ s4serve$* --door client=doors/client --door admin=doors/admin drive.image &"
    # shellcheck disable=SC2086
    "$program" $* --door client=doors/client --door admin=doors/admin drive.image 2> service.said &
    service=$!
    await grep -q serves service.said
}

# Begins a bridge from a socket to the clients' door.
connect() {
    echo "\$ python3 -m s4d.bridge --doors doors --unix client=client.sock --log access.log &"
    python3 -m s4d.bridge --doors doors --unix client=client.sock --log access.log > bridge.said 2>&1 &
    bridge=$!
    await grep -qx ready bridge.said
}

# What a session of a client prints.
ask() {
    echo "\$ python3 -c '$1'"
    python3 -c "import s4d; drive = s4d.Drive.connect('unix:client.sock'); $1"
}

mkdir -p doors/client doors/admin
mkfifo doors/client/door doors/admin/door
echo "# A new drive, which keeps 30 days whatever is asked of it"
serve " --create 24 --keep 30d"
connect
echo "# A client makes an object, and writes it"
ask 'print(drive.create().object)'
ask 'drive.write(1, 0, b"meet at the mill")'
echo "# The service is killed, and begun again"
{ kill -9 "$service" && wait "$service"; } 2> /dev/null || true # bash says there that it was killed
serve
echo "# What was replied is there"
ask 'print(drive.read(1).decode())'
echo "# An administrator stops it"
echo "\$ echo stop > doors/admin/door"
echo stop > doors/admin/door
status=0
wait "$service" || status=$?
echo "(status $status)"
