# Read by the scripts here, after `. program.sh`: their --help, and the words that run s4d, or the program that `name` says.
#     S4D in the environment, or S4SERVE, names the program; else it is the proved one that `rt ci` or `rt run` left, or an
#     unproved build
here=$(cd "$(dirname "${BASH_SOURCE[0]}")" && pwd)
top=$(cd "$here/.." && pwd)
me=$(basename "$0")
name=${name:-s4d}
given=${name^^}
proved=$top/crates/$name/out/$name
unproved=$top/out/unproved/$name # git passes over out/

# Ends the script with a line on standard error.
fail() {
    echo "$me: $2" >&2
    exit "$1"
}

# Prints the script's own head where the first word asks for help.
help_where_asked() {
    case ${1:-} in -h | --help)
        sed -n '2,${/^#/!q;s/^# \{0,1\}//;p}' "$0"
        exit 0
        ;;
    esac
}

need_python() {
    command -v python3 > /dev/null || fail 2 "python3 is needed"
}

# Sets `program` to a built one, and `kind` to what it is; status 1 where none is here.
find_program() {
    if [ -n "${!given:-}" ]; then
        program=${!given} kind="the program that $given names"
    elif [ -x "$proved" ]; then
        program=$proved kind="the proved program"
    elif [ -x "$unproved" ] && [ -z "$(find "$top/crates" -name '*.rt' -newer "$unproved" -print -quit)" ]; then
        program=$unproved kind="an unproved build"
    else
        return 1
    fi
    [ -x "$program" ] || fail 1 "$program: no program"
    program=$(realpath "$program")
}

# The same, and makes an unproved build where no program is here.
find_or_build_program() {
    find_program && return
    command -v rt > /dev/null ||
        fail 2 "no built $name is here, and rt, which builds it, isn't on the PATH: it comes with the Rattle kit, as CONTRIBUTING.md says"
    build_unproved
    find_program
}

# Compiles the program with no proof, and keeps it.
build_unproved() {
    local said
    echo "$me: no built $name is here: compiling it with no proof, once; a minute or two" >&2
    said=$("$top/tests/unproved" "$name" 2>&1) || { echo "$said" >&2; fail 1 "no program was compiled"; }
    echo "$me: kept as out/unproved/$name; it isn't proved. The proved program is built as CONTRIBUTING.md says" >&2
}
