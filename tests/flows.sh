#!/bin/sh
# Runs the recipes of docs/FLOWS.md, if yosys and abc are installed, and compares what they print with what that page shows;
# then tools/rtl2bench.sh on the pairs of tests/flows/pairs.txt.
# usage: tests/flows.sh PROGRAM
program=${1:?PROGRAM}
top=$(cd "$(dirname "$0")/.." && pwd) || exit 2
passed=0 failed=0
for name in berkeley-abc yosys-abc abc; do
    abc=$(command -v $name) && break
done
if [ -z "$abc" ] || ! command -v yosys >/dev/null; then
    echo 'SKIPPED flows: yosys or abc is not installed (Debian: yosys, berkeley-abc), so no recipe and no pair was tried'
    echo 'flows: 0 passed, 0 failed, 1 skipped'
    exit
fi
place=$(mktemp -d) || exit 2
trap 'rm -rf "$place"' EXIT
mkdir "$place/bin" && ln -s "$abc" "$place/bin/abc" && ln -s "$(realpath "$program")" "$place/bin/bddcheck" &&
    ln -s "$top/tools/rtl2bench.sh" "$place/bin/rtl2bench" && ln -s "$top/tools/rtlcheck.sh" "$place/bin/rtlcheck" && cp -R "$top"/examples/verilog/* "$top"/tests/flows/* "$place" || exit 2
PATH=$place/bin:$PATH BDDCHECK=$place/bin/bddcheck
export BDDCHECK

# The blocks: 1.sh and what it prints, 1.txt, and so on.
awk -v place="$place" '
    /^```sh$/ { file = place "/" ++number ".sh"; next }
    /^```text$/ { file = place "/" number ".txt"; next }
    /^```$/ { file = ""; next }
    file { print > file }' "$top/docs/FLOWS.md"
cd "$place" || exit 2
number=1
while [ -e $number.sh ]; do
    sh -c ". ./$number.sh" >$number.out 2>$number.err </dev/null
    if cmp -s $number.out $number.txt; then
        passed=$((passed + 1))
    else
        failed=$((failed + 1))
        echo "FAILED flows: recipe $number of docs/FLOWS.md prints"
        cat $number.out $number.err
        echo "and not"
        cat $number.txt
    fi
    number=$((number + 1))
done
recipes=$((number - 1))

# Writes what a flow makes of a design, by one of the ways of pairs.txt, into a folder with a blank in its name, as the only file there.
mkdir 'made of' 'first ones' || exit 2
made() {
    read="read_verilog ${2:+-D$2} $1; hierarchy -auto-top; proc; flatten; memory"
    keep='setattr -set keep 1 t:$_*DFF*_ %co1:+[Q] w:* %i'
    write='write_verilog -noattr "made of/made.v"'
    case $3 in
    rtl | cells) cp "$1" "made of/made.${1##*.}" && return ;;
    synth) yosys -q -p "$read; synth -nofsm; $write" ;;
    mapped)
        yosys -q -p "$read; techmap; opt_expr; opt_clean; $keep; dfflibmap -liberty cells.lib; abc -liberty cells.lib; opt_clean; $write"
        ;;
    abc)
        yosys -q -p "$read; techmap; dfflegalize -cell \$_DFF_P_ 01 -cell \$_DFF_PP0_ 01 -cell \$_DFF_PP1_ 01
            techmap -map plain.v; techmap; write_blif to_abc.blif" &&
            abc -q 'read_blif to_abc.blif; strash; dc2; write_blif from_abc.blif' && mv from_abc.blif 'made of/made.blif'
        ;;
    esac >made.out 2>&1 || cat made.out
    # The modules without a body, which the design includes, are no part of what yosys writes.
    parts=${1%.v}_parts.v
    [ ! -e "$parts" ] || cat "$parts" >>'made of/made.v'
}
# Compares a pair as docs/FLOWS.md does. What is left open is 0 if pairs are by position, so that both have the same inputs.
pair() {
    first=$1 macro=$3 way=$4 match=$5 left=$6
    rm -rf 'made of/'* && made "$2" "$macro" "$way" && set -- 'made of'/made.* || return
    undefined='' && [ "$match" = name ] || undefined=0
    [ "$way" = rtl ] || [ "$way" = cells ] || macro=
    liberty='' && case $way in mapped | cells) liberty=cells.lib ;; esac
    golden="first ones/$match $first.bench"
    [ -e "$golden" ] || rtl2bench "$first" ${undefined:+--undefined 0} -o "$golden" || return
    rtl2bench ${liberty:+--liberty "$liberty"} ${macro:+-D "$macro"} ${undefined:+--undefined 0} --like "$golden" \
        "$1" -o 'made of/second.bench' || return
    rtl2bench --compare --match "$match" ${left:+--leave-out "$left"} "$golden" 'made of/second.bench' >compared.out
    compared=$?
    cat compared.out
    # If only partners are missing, what bddcheck says of these registers is looked at as well.
    [ $compared -eq 0 ] || grep -q '^registers: .* 0 different, [1-9]' compared.out || return $compared
    bddcheck --match "$match" "$golden" 'made of/second.bench' || return
    return $compared
}
refused() {
    echo old >'made of/refused.bench'
    rtl2bench ${2:+-D "$2"} "$1" -o 'made of/refused.bench'
    status=$?
    [ $status -eq 3 ] && [ ! -e 'made of/refused.bench' ]
}
grep -v -e '^#' -e '^$' pairs.txt >rows
while read -r first second macro way match left seen; do
    [ "$macro" != - ] || macro=
    [ "$left" != - ] || left=
    case $way in
    refused) refused "$first" "$macro" >pair.out 2>&1 && grep -qF -e "$seen" pair.out ;;
    *)
        pair "$first" "$second" "$macro" "$way" "$match" "$left" >pair.out 2>&1 </dev/null
        status=$?
        case $seen in
        equal) [ $status -eq 0 ] && grep -q '^[1-9][0-9]* equal, 0 different, 0 unmatched$' pair.out ;;
        *) [ $status -eq 1 ] && grep -qF -e "$seen" pair.out ;;
        esac
        ;;
    esac
    # The status of the row's last test.
    if [ $? -eq 0 ]; then
        passed=$((passed + 1))
    else
        failed=$((failed + 1))
        echo "FAILED flows: $first, $second, ${macro:-as it is}, by $way: not '$seen', but"
        cat pair.out
    fi
done <rows

# Calls that must end with a status, the text that must be printed, and that no temporary folder stays.
printf '%s\n' 'INPUT(n[3])' 'INPUT(n[2])' 'INPUT(n[1])' 'OUTPUT(digit)' 'high = OR(n[2], n[1])' 'digit = NAND(n[3], high)' >given.bench
mkdir temporary && echo 'INPUT(d) q = DFF(d)' >bare.bench && cp states.v 'two words.v' &&
    echo 'module declares(input a, output y); always_comb y = ~a; endmodule' >declares.v || exit 2
ends_of() {
    command=$1 status=$2 said=$3 && shift 3
    TMPDIR=$place/temporary "$command" "$@" >ends.out 2>&1 </dev/null
    if [ $? -eq "$status" ] && { [ -z "$said" ] || grep -qF -e "$said" ends.out; } && [ -z "$(ls temporary)" ]; then
        passed=$((passed + 1))
    else
        failed=$((failed + 1))
        echo "FAILED flows: $command $* does not end with status $status and '$said', or leaves files:"
        cat ends.out && ls temporary
    fi
}
ends() {
    ends_of rtl2bench "$@"
}
checks() {
    ends_of rtlcheck "$@"
}
# A text that the last of these calls must have printed as well, or must not have printed.
also() {
    if [ "$(grep -cF -e "$2" ends.out)" -$1 0 ]; then
        passed=$((passed + 1))
    else
        failed=$((failed + 1))
        echo "FAILED flows: the lines with '$2' are not -$1 0 in:"
        cat ends.out
    fi
}
ends 0 '' -D 'NO=1' 'two words.v' -o 'two words.bench'
also eq 'left open'
ends 0 '2 alike, 0 different, 0 without a partner' --compare 'two words.bench' 'two words.bench'
sed 's/state\[0\]/renamed/g' 'two words.bench' >renamed.bench || exit 2
ends 1 '1 alike, 0 different, 2 without a partner' --compare 'two words.bench' renamed.bench
ends 1 'ONLY SECOND renamed' --compare 'two words.bench' renamed.bench
ends 0 '2 alike, 0 different, 0 without a partner' --compare --match position 'two words.bench' renamed.bench
ends 3 'it says nothing of its registers' --compare 'two words.bench' bare.bench
ends 2 'init,foo' --compare --leave-out init,foo 'two words.bench' 'two words.bench'
ends 2 'no file to write' states.v
ends 2 'no option --fast' --fast states.v -o no.bench
ends 2 '-o wants a word' states.v -o
ends 3 'absent.v: cannot be read' absent.v -o no.bench
ends 3 'absent.lib' --liberty absent.lib states.v -o no.bench
ends 3 'absent.bench' --like absent.bench states.v -o no.bench
ends 3 'absent/no.bench' states.v -o absent/no.bench
ends 3 'ERROR' 'declares.v' -o no.bench
ends 0 '' --sv 'declares.v' -o no.bench
ends 3 'state' --top state states.v -o no.bench
ends 0 'latch.v:12: latch: q' latch.v -o no.bench
ends 0 'constants.v:18: left open (x or z), inputs of the netlist: row[1:0]$x' constants.v -o no.bench
ends 0 'without a driver, inputs of the netlist: loose' -D LOOSE constants.v -o no.bench
ends 0 'without a driver, made 0: loose' --undefined 0 -D LOOSE constants.v -o no.bench
ends 0 '' cases.v -o no.bench
also eq 'left open'
# A module whose only lines declare nets has no body. One of constants has, and so has the top.
cat >stub.v <<'END' || exit 2
module part(a, z); input a; wire a; output z; wire z; endmodule
module tie(output z); assign z = 1; endmodule
module stub(input a, output y, t); part u(.a(a), .z(y)); tie v(.z(t)); endmodule
END
ends 0 '' stub.v -o no.bench
grep '^# box' no.bench >ends.out
also ne '# box u module=part parameters=none'
also eq '# box v'
# A module with a body is none, whatever attributes it has.
cat >whole.v <<'END' || exit 2
(* keep_hierarchy *) module inner(input a, b, output y); assign y = a & b; endmodule
(* whitebox *) module white(input a, b, output y); assign y = a ^ b; endmodule
module whole(input a, b, output y, z); inner u(a, b, y); (* keep_hierarchy *) white v(a, b, z); endmodule
END
ends 0 '' whole.v -o no.bench
cp no.bench ends.out
also eq 'box'
also ne 'z = XOR(a, b)'
echo 'module kept(input clk, d, output y); (* keep *) reg r; reg s; always @(posedge clk) {r, s} <= {d, ~d}; assign y = d; endmodule' >kept.v
ends 0 '' kept.v -o kept.bench
ends 0 'registers: 1 alike, 0 different, 0 without a partner' --compare kept.bench kept.bench
ends 0 '' -f listed.f -o listed.bench
grep -q '^n\[0\] = BUFF(constant$1)$' listed.bench || ends 0 'the list of files was not followed' --compare listed.bench listed.bench
ends 0 '' -Iparts -DWIDE --top listed --param W=5 --param 'KIND="xor"' listed.v -o more.bench
grep -q '^INPUT(a\[4\])$' more.bench || ends 0 'the parameter was not set' --compare more.bench more.bench
ends 2 '--param wants --top' --param W=5 -f listed.f -o no.bench
ends 2 '--param W: NAME=VALUE' --top listed --param W -f listed.f -o no.bench
ends 3 'V' --top listed --param V=5 -f listed.f -o no.bench
ends 3 'absent.f: cannot be read' -f absent.f -o no.bench
ends 0 '' ram.v -o ram.bench
ends 0 'boxes: 4 alike, 0 different, 0 without a partner' --compare ram.bench ram.bench
ends 0 '' -D OTHER_DEPTH ram.v -o depth.bench
ends 0 'boxes: 4 alike' --compare --leave-out parameters ram.bench depth.bench

# The names that causes have are those of nets of the design.
ends 0 '' named.v -o named.bench
for wrong in WRONG_CHAIN,'chain[2]' WRONG_HIGH,mid; do
    ends 0 '' -D "${wrong%,*}" named.v -o wrong.bench
    bddcheck --format json --causes named.bench wrong.bench >ends.out 2>&1
    also ne '"causes":[{"signal":"'"${wrong#*,}"'"'
done
# Names that rtl2bench makes are those of one netlist.
grep -o '^\$[^ ]*' named.bench >made.names && grep -qwF -f made.names wrong.bench
[ $? -eq 1 ] && passed=$((passed + 1)) || { failed=$((failed + 1)) && echo 'FAILED flows: two netlists have names that rtl2bench has made'; }

# From two designs to a report.
checks 0 '6 equal, 0 different, 0 unmatched' -g adder.v -r adder_select.v
checks 1 'DIFFER count[0] edge: first=rising second=falling' -g timer.v -r -D FALLING timer.v
also ne '6 equal, 0 different, 0 unmatched'
checks 0 'registers: 3 alike' --leave-out edge -g timer.v -r -D FALLING timer.v
checks 1 'DIFFER NEXT q[0] at' -r -D NO_ENABLE enable.v -g enable.v
checks 0 '7 equal, 0 different, 0 unmatched' --leave-out init --top pulse --liberty cells.lib -g pulse.v -r pulse_mapped.v
checks 1 'DIFFER low.u_ram.addr[0] at' -g ram.v -r -D WRONG_ADDRESS ram.v
checks 0 'equal, 0 different' --match position --undefined 0 -g memory.v -r memory_words.v
checks 0 '7 equal, 0 different' -g digit.v -r digit_blank.v -- --given given.bench
checks 0 '' --keep kept -g adder.v -r adder_select.v
[ -s kept/golden.bench ] && [ -s kept/revised.bench ] && passed=$((passed + 1)) || { failed=$((failed + 1)) && ls kept; }
checks 2 'nothing was compared' -g absent.v -r adder.v
checks 2 'no option --fast' --fast -g adder.v -r adder.v
checks 2 'each once' -g adder.v
checks 2 '' -g adder.v -r adder.v -- --limit NODES
if [ -e "$top/tools/page.py" ]; then
    checks 1 'DIFFER NEXT q[0] at' --page page.html -g enable.v -r -D NO_ENABLE enable.v
    grep -q '</html>' page.html && passed=$((passed + 1)) || { failed=$((failed + 1)) && echo 'FAILED flows: there is no page'; }
else
    checks 3 'page.html: the page was not written' --page page.html -g enable.v -r -D NO_ENABLE enable.v
fi

echo "flows: $recipes recipes and $(wc -l <rows) pairs tried with $(yosys -V | cut -d ' ' -f 1,2)"
echo "flows: $passed passed, $failed failed"
[ "$failed" -eq 0 ]
