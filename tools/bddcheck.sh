#!/bin/sh
# Compares two netlists: tools/bddcheck.sh [OPTIONS] [FIRST SECOND]; --help says more. If the program is not built, or is older
# than a source, its sources answer before their proof, in about a minute for each call on an idle machine, and two lines on standard
# error say so (tools/unproved.py). tools/build.py proves and builds the program. Paths are the caller's own, and a symbolic link to
# this file serves as well. The status is the program's, 0 to 3; 4 if there is no answer, and one line on standard error says why.
script=$0
while [ -L "$script" ]; do
    link=$(readlink "$script") || exit 4
    case $link in
    /*) script=$link ;;
    *) script=$(dirname "$script")/$link ;;
    esac
done
top=$(cd "$(dirname "$script")/.." && pwd -P) || exit 4
program=$top/crates/bddcheck/out/bddcheck
if [ -x "$program" ] && [ -z "$(find "$top/crates.txt" "$top/crates" -name out -prune -o -type f -newer "$program" -print | head -n 1)" ]; then
    exec "$program" "$@"
fi
command -v rt >/dev/null || {
    echo 'bddcheck.sh: the program is not built, and the command rt, which builds it, is not found: take a release archive, which needs no rt' >&2
    exit 4
}
command -v python3 >/dev/null || {
    echo 'bddcheck.sh: the program is not built, and python3, which rt needs, is not found: install it, or take a release archive' >&2
    exit 4
}
exec python3 "$top/tools/unproved.py" "$@"
