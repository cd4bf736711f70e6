#!/bin/sh
# Makes an archive of what tools/install.sh installs (the proved program, its manual page, its scripts and documents): tools/release.sh [FOLDER].
# FOLDER (the current one) gets bddcheck-COMMIT-x86_64-linux.tar.gz. In it PROVENANCE says of which commit the
# program is and by which kit it was proved. The program in it runs without the kit: it needs only the C library.
# A tree with changes that are not committed is refused, since no commit would say what was built.
folder=$(cd "${1:-.}" && pwd -P) || exit 2
top=$(cd "$(dirname "$0")/.." && pwd -P) && cd "$top" || exit 2
if [ -n "$(git status --porcelain)" ]; then
    echo 'release.sh: commit the changes of this tree first' >&2
    exit 2
fi
commit=$(git rev-parse HEAD) && kit=$(rt version) || exit 4
name=bddcheck-$(git rev-parse --short=12 HEAD)-x86_64-linux
work=$(mktemp -d) || exit 2
trap 'rm -rf "$work"' EXIT
place=$work/$name
unset BDDCHECK DESTDIR
tools/install.sh "$place" >/dev/null || exit
cp tools/install.sh "$place" || exit 2
program=$place/bin/bddcheck
cat >"$place/PROVENANCE" <<TEXT
bddcheck, x86-64 (x86-64-v2), Linux
commit: $commit
proved by: $kit
sha256: $(sha256sum <"$program" | cut -d ' ' -f 1)
needs: $(ldd "$program" | awk '$2 == "=>" { print $1 }' | tr '\n' ' ')of a C library with $(objdump -T "$program" 2>/dev/null | grep -o 'GLIBC_[0-9.]*' | sort -Vu | tail -n 1)

bin/bddcheck FIRST SECOND compares two netlists; ./install.sh PREFIX installs it. Documents and examples are in
share/doc/bddcheck, the manual page is share/man/man1/bddcheck.1. The proofs are in the repository: its command 'rt ci'
repeats them.
TEXT
archive=$folder/$name.tar.gz
tar -C "$work" --sort=name --owner=0 --group=0 --numeric-owner --mtime="@$(git log -1 --format=%ct)" -cf - "$name" |
    gzip -9n >"$archive" && echo "$archive"
