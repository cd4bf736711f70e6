#!/bin/sh
# Makes a bench netlist for bddcheck of a design that yosys reads, and compares what two such netlists say of their registers.
# tools/install.sh installs it as rtl2bench.
#
# usage: rtl2bench [OPTIONS] FILE .. -o OUT.bench
#        rtl2bench --compare [--match name|position] [--leave-out FACT,..] FIRST.bench SECOND.bench
#
# FILE is Verilog (.v), SystemVerilog (.sv), BLIF as abc writes it (.blif), or a netlist mapped to the cells of --liberty.
#
#   --sv                the files that follow are SystemVerilog, whatever their names
#   --top NAME          the top module; without it yosys looks for it
#   --param NAME=VALUE  a parameter of the module of --top: a number, or a "text" in double quotes; may be repeated
#   --liberty FILE      the functions of the cells that a mapped netlist names; may be repeated
#   -D NAME[=VALUE]     defines a macro; -I FOLDER is searched for included files
#   -f LIST             files and options from a file, as simulators take it: // and # begin comments, words end at blanks,
#                       +define+NAME=VALUE and +incdir+FOLDER are -D and -I
#   --name-style net    a register has the name of the net that it drives, a port's before others (the default)
#   --name-style cell   the name in its cell's name, if it has one: q[3] for a cell q_reg[3] or q_reg_3_
#   --like OTHER.bench  the name that OTHER.bench has for it, if one of its nets or its cell has that name
#   --undefined 0|1     x, z and nets without a driver are this; without it each is an input of its own
#
# Nothing is optimised; case tables and memories become gates and registers. OUT.bench has a comment of each register with what the format
# does not hold: latch or flip-flop, clock, edge, asynchronous reset and set, initial value. --compare pairs registers as bddcheck
# does, and prints what differs and what has no partner; --leave-out kind, clock, edge, clear, set or init does not look at it.
# The outputs of an instance of a module without a body, or with (* blackbox *), become inputs, and its inputs outputs, named
# u_ram.addr[0]; a comment has its module and parameters, which --compare compares (--leave-out module, parameters).
# Standard error has a line for each line of the source that makes a latch, or that leaves bits open on which something depends.
#
# Status: 0, done or alike; 1, registers differ or lack a partner; 2, wrong words; 3, a step failed: OUT.bench is not there then.
script=$0
while [ -L "$script" ]; do
    link=$(readlink "$script") || exit 3
    case $link in
    /*) script=$link ;;
    *) script=$(dirname "$script")/$link ;;
    esac
done
here=$(cd "$(dirname "$script")" && pwd -P) || exit 3
usage() {
    sed -n '/^# usage/,/^# Status/s/^# \{0,1\}//p' "$script"
}
wrong() {
    echo "rtl2bench: $*; --help says more" >&2
    exit 2
}
fault() {
    echo "rtl2bench: $*" >&2
    exit 3
}
command -v python3 >/dev/null || fault 'python3 is not installed'
case ${1-} in
--help | -h) usage && exit ;;
--compare) shift && exec python3 "$here/rtl2bench.py" compare "$@" ;;
esac

work=$(mktemp -d) || exit 3
trap 'rm -rf "$work"' EXIT
trap 'exit 130' INT TERM HUP
# A word of a yosys script. yosys takes a name in quotes for the name of a file, and else ends words at blanks.
quoted() {
    case $1 in
    *'"'* | *'
'*) wrong "yosys cannot be given the name $1" ;;
    esac
    case $1 in
    /*) printf '"%s"' "$1" ;;
    *) printf '"./%s"' "$1" ;;
    esac
}
plain() {
    case $1 in
    '' | *[!A-Za-z0-9_\$\\=.:/\']*) wrong "yosys cannot be given the word $1" ;;
    esac
    printf '%s' "$1"
}
# Adds the command that reads a file.
reads() {
    case $1 in
    *.sv | *.svh) command='read_verilog -sv -icells' ;;
    *.blif) command=read_blif tables=yes ;;
    *.v | *.vh | *.vg | *.vm | *.vo | *.gv | *.verilog) command="read_verilog$dialect -icells" ;;
    *) wrong "$1: no Verilog (.v, .sv) and no BLIF (.blif)" ;;
    esac
    [ -r "$1" ] || fault "$1: cannot be read"
    name=$(quoted "$1") || exit
    echo "$command $name" >>"$work/files"
}
# The words of a file of -f, without comments.
listed() {
    [ -r "$1" ] || fault "$1: cannot be read"
    sed -e 's|^//.*||' -e 's|[[:blank:]]//.*||' -e 's/^#.*//' -e 's/[[:blank:]]#.*//' "$1"
}
# The words of +define+A+B=1, each on a line.
plus() {
    echo "${1#+*+}" | tr + '\n'
}
define() {
    name=$(plain "$1") && echo "verilog_defaults -add -D$name" >>"$work/begin" || exit
}
parameter() {
    case $1 in
    ?*=\"*\") value=\"$(plain "$(echo "${1#*=}" | tr -d '"')")\" || exit ;;
    ?*=?*) value=$(plain "${1#*=}") || exit ;;
    *) wrong "--param $1: NAME=VALUE" ;;
    esac
    name=$(plain "${1%%=*}") && parameters="$parameters -set $name $value" || exit
}
folders=0
includes() {
    folders=$((folders + 1))
    ln -s "$(cd "$1" && pwd -P)" "$work/include$folders" || fault "$1: no folder"
    echo "verilog_defaults -add -I$work/include$folders" >>"$work/begin"
}
: >"$work/begin" && : >"$work/files" || exit 3
dialect='' tables='' out='' top=-auto-top parameters='' style=net like='' undefined=''
while [ $# -gt 0 ]; do
    case $1 in
    -o | --top | --param | --liberty | -D | -I | -f | --name-style | --like | --undefined)
        [ $# -gt 1 ] || wrong "$1 wants a word after it"
        ;;
    esac
    case $1 in
    -o) out=$2 && shift ;;
    --top) top="-top $(plain "$2")" && shift || exit ;;
    --param) parameter "$2" && shift ;;
    -f)
        words=$(listed "$2") || exit
        shift 2
        # No word of the list is a pattern.
        set -f
        set -- $words "$@"
        set +f
        continue
        ;;
    +define+?*) for word in $(plus "$1"); do define "$word"; done ;;
    +incdir+?*) for word in $(plus "$1"); do includes "$word"; done ;;
    --name-style) style=$2 && shift ;;
    --like) like=$2 && shift ;;
    --undefined) undefined=$2 && shift ;;
    --sv) dialect=' -sv' ;;
    -D) define "$2" && shift ;;
    -I) includes "$2" && shift ;;
    -D?*) define "${1#-D}" ;;
    -I?*) includes "${1#-I}" ;;
    --liberty) name=$(quoted "$2") && echo "read_liberty -ignore_miss_func $name" >>"$work/begin" && shift || exit ;;
    --compare) wrong '--compare comes first' ;;
    -*) wrong "no option $1" ;;
    *) reads "$1" ;;
    esac
    shift
done
[ -s "$work/files" ] || wrong 'no file to read'
[ -z "$parameters" ] || [ "$top" != -auto-top ] || wrong '--param wants --top, the module of the parameter'
[ -n "$out" ] || wrong 'no file to write: -o OUT.bench'
case $style in net | cell) ;; *) wrong "--name-style $style: net or cell" ;; esac
case $undefined in '' | 0 | 1) ;; *) wrong "--undefined $undefined: 0 or 1" ;; esac
command -v yosys >/dev/null || fault 'yosys is not installed'

# If this run fails, what an earlier one wrote must not be taken for its netlist.
rm -f "$out" || exit 3
# Runs yosys on a script. Only warnings and errors are said.
yosys_script() {
    yosys -q -s "$1" >&2 </dev/null || fault "yosys could not do it: status $?"
}
{
    cat "$work/begin" "$work/files"
    [ -z "$parameters" ] || echo "chparam$parameters ${top#-top }"
    echo "hierarchy -check $top"
    echo "write_rtlil \"$work/read.il\""
} >"$work/read.ys"
yosys_script "$work/read.ys"
# A module without a body gets the attribute `blackbox`, unless it is the top, so it is not flattened. yosys gives it to most of them.
awk '
    /^(attribute|module) / && !inside { head = head $0 "\n"; is_top = is_top || /^attribute .top 1$/ }
    /^module / { inside = 1; text = ""; next }
    inside && /^  (cell|process|memory|connect) / { printf "%s%s", head, text; head = text = ""; inside = 2 }
    inside == 1 { text = text $0 "\n" }
    inside != 1 && !(/^attribute / && !inside) { print }
    /^end$/ && inside == 1 { printf "%s%s%s", is_top || head ~ /(^|\n)attribute .blackbox / ? "" : "attribute \\blackbox 1\n", head, text }
    /^end$/ { inside = 0; head = ""; is_top = 0 }
' "$work/read.il" >"$work/boxed.il" || fault 'what yosys read could not be written'
{
    echo "read_rtlil \"$work/boxed.il\""
    cat <<'END'
setattr -mod -unset keep_hierarchy
setattr -unset keep_hierarchy
proc -noopt
flatten -wb
memory_collect
memory_map
chformal -remove
techmap
dfflegalize -cell $_DFF_?_ 01 -cell $_DFF_?P?_ 01 -cell $_DFFSR_?PP_ 01 \
    -cell $_DLATCH_P_ 01 -cell $_DLATCH_PP?_ 01 -cell $_DLATCHSR_PPP_ 01 -cell $_SR_PP_ 01
END
    # A table of BLIF becomes multiplexers over constants.
    [ -z "$tables" ] || echo 'opt_expr -keepdc -mux_bool'
    echo "write_json \"$work/design.json\""
} >"$work/script.ys"
yosys_script "$work/script.ys"
[ -s "$work/design.json" ] || fault 'yosys wrote nothing'
python3 "$here/rtl2bench.py" convert "$work/design.json" "$work/out.bench" --name-style "$style" \
    ${like:+--like "$like"} ${undefined:+--undefined "$undefined"} || exit 3
cat "$work/out.bench" >"$out" || fault "$out: cannot be written"
