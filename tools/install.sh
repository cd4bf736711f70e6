#!/bin/sh
# Installs bddcheck: tools/install.sh PREFIX, with a PREFIX such as /usr/local or ~/.local. Below PREFIX go
#
#   bin                       bddcheck, rtlcheck, rtl2bench, bddcheck-join, bddcheck-vcd, bddcheck-page
#   share/man, completions    the manual page; what bash, zsh and fish complete
#   share/doc/bddcheck        the documents that the manual page names, and examples, in the folders that they have in the repository
#
# DESTDIR, if it is set, is put before PREFIX, for those who make packages. In a clone the proved program is built if that is needed;
# BDDCHECK names another program to install. In an unpacked release this script copies what is beside it.
usage='usage: install.sh PREFIX'
case ${1-} in
'' | -*) echo "$usage" >&2 && exit 2 ;;
esac
[ $# -eq 1 ] || { echo "$usage" >&2 && exit 2; }
prefix=${DESTDIR-}$1
here=$(cd "$(dirname "$0")" && pwd -P) || exit 4
if [ -x "$here/bin/bddcheck" ]; then
    mkdir -p "$prefix" && cp -RP "$here/bin" "$here/share" "$prefix" && (cd "$here" && find bin share ! -type d) | sed "s|^|$prefix/|"
    exit
fi
top=$(dirname "$here")
program=${BDDCHECK-}
if [ -z "$program" ]; then
    "$here/build.py" || exit
    program=$top/crates/bddcheck/out/bddcheck
fi
put() {
    mkdir -p "$(dirname "$prefix/$3")" && install -m "$1" "$2" "$prefix/$3" && echo "$prefix/$3"
}
# A script below share/bddcheck, and the command by which it is called.
script() {
    put 755 "$here/$1" "share/bddcheck/$1" && ln -sf "../share/bddcheck/$1" "$prefix/bin/$2" && echo "$prefix/bin/$2"
}
documents() {
    for path in CHANGELOG.md docs/FLOWS.md docs/page.webp docs/CI.md docs/CLUSTER.md docs/ORDERS.md docs/EQUAL_INSIDE.md docs/report.schema.json docs/report.example.json \
        $(cd "$top" && find examples -type f | sort); do
        put 644 "$top/$path" "share/doc/bddcheck/$path" || return
    done
}
put 755 "$program" bin/bddcheck &&
    put 644 "$top/docs/bddcheck.1" share/man/man1/bddcheck.1 &&
    put 644 "$here/completions/bddcheck.bash" share/bash-completion/completions/bddcheck &&
    put 644 "$here/completions/_bddcheck" share/zsh/site-functions/_bddcheck &&
    put 644 "$here/completions/bddcheck.fish" share/fish/vendor_completions.d/bddcheck.fish &&
    put 755 "$here/rtl2bench.py" share/bddcheck/rtl2bench.py && put 644 "$here/open_bits.py" share/bddcheck/open_bits.py &&
    put 644 "$here/page.html" share/bddcheck/page.html &&
    script rtl2bench.sh rtl2bench && script rtlcheck.py rtlcheck && script join.py bddcheck-join && script vcd.py bddcheck-vcd &&
    script page.py bddcheck-page && documents
