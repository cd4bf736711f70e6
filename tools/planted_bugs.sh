#!/bin/sh
# Tries the planted bugs that the gate leaves out for its time, those in crates/*/planted-bugs; tools/planted_bugs.py does the work,
# and says how with --help.
#
# usage: tools/planted_bugs.sh [--since REV | --all] [--only WORD] [--jobs N] [CRATE ..]
exec python3 "$(dirname "$0")/planted_bugs.py" "$@"
