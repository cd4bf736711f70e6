#!/bin/sh
# Compares two designs in Verilog by one command: rtl2bench for both, their clocks and resets, and then bddcheck; tools/rtlcheck.py does the
# work, and says how with --help.
#
# usage: tools/rtlcheck.sh [OPTIONS] [WORDS] -g WORDS -r WORDS [-- OPTIONS OF BDDCHECK]
script=$0
while [ -L "$script" ]; do
    link=$(readlink "$script") || exit 2
    case $link in
    /*) script=$link ;;
    *) script=$(dirname "$script")/$link ;;
    esac
done
exec python3 "$(dirname "$script")/rtlcheck.py" "$@"
