#!/usr/bin/env bash
# Puts the built programs s4d, s4serve and s4, their manuals, and what lets bash, zsh and fish complete words below a folder:
#     ./install.sh PREFIX      such as ~/.local or /usr/local: into PREFIX/bin, PREFIX/share/man/man1,
#                              PREFIX/share/bash-completion/completions, PREFIX/share/zsh/site-functions (let zsh's fpath name
#                              that folder) and PREFIX/share/fish/vendor_completions.d
# S4D, S4SERVE and S4 in the environment name the programs; else they are those that rt left in crates/*/out. Nothing is built here.
# Status 1: a program isn't built, and nothing is installed, or a file can't be written; 2: the call is wrong.
set -euo pipefail
top=$(cd "$(dirname "${BASH_SOURCE[0]}")" && pwd)

case ${1:-} in -h | --help)
    sed -n '2,${/^#/!q;s/^# \{0,1\}//;p}' "$0"
    exit 0
    ;;
esac
if [ $# != 1 ] || [ -z "$1" ]; then
    echo "usage: install.sh PREFIX" >&2
    exit 2
fi
prefix=$1
s4d=${S4D:-$top/crates/s4d/out/s4d}
s4serve=${S4SERVE:-$top/crates/s4serve/out/s4serve}
s4=${S4:-$top/crates/s4/out/s4}

# Says of a program that isn't there how it is built.
is_built() {
    [ -f "$1" ] && [ -x "$1" ] && return
    echo "install.sh: $1 isn't built: $2" >&2
    return 1
}

all=yes
is_built "$s4d" "(cd $top/crates/s4d && rt run -- pipe client < /dev/null) builds it" || all=
is_built "$s4serve" "(cd $top/crates/s4serve && rt run -- --version) builds it" || all=
is_built "$s4" "(cd $top/crates/s4 && rt run -- --version) builds it" || all=
[ "$all" ] || exit 1

# Installs a file, and says where.
put() {
    install -D -m "$1" -- "$2" "$prefix/$3"
    echo "$prefix/$3"
}

put 755 "$s4d" bin/s4d
put 755 "$s4serve" bin/s4serve
put 755 "$s4" bin/s4
put 644 "$top/s4d.1" share/man/man1/s4d.1
put 644 "$top/s4serve.1" share/man/man1/s4serve.1
put 644 "$top/s4.1" share/man/man1/s4.1
for name in s4d s4serve s4; do
    put 644 "$top/completions/$name.bash" "share/bash-completion/completions/$name"
    put 644 "$top/completions/_$name" "share/zsh/site-functions/_$name"
    put 644 "$top/completions/$name.fish" "share/fish/vendor_completions.d/$name.fish"
done
