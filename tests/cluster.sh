#!/bin/sh
# Runs the recipes of docs/CLUSTER.md, as they are on that page, and compares the joined report with that of a single run: by GNU parallel, by an
# array of Slurm with daemons of its own on this machine, and by what Bazel gives a shard of a test. What is not installed, or does not start, is
# skipped and counted as that.
# usage: tests/cluster.sh PROGRAM
program=${1:?PROGRAM}
top=$(cd "$(dirname "$0")/.." && pwd) || exit 2
place=$(mktemp -d) || exit 2
passed=0 failed=0 skipped=0 daemons=
ended() {
    # Each is one of the daemons that were started here; slurmd goes first, and munged, which both need, last.
    for daemon in $daemons; do kill "$daemon" 2>/dev/null && wait "$daemon" 2>/dev/null; done
    rm -rf "$place"
}
trap ended EXIT
trap 'exit 130' INT TERM

mkdir "$place/bin" "$place/blocks" && ln -s "$(realpath "$program")" "$place/bin/bddcheck" &&
    ln -s "$top/tools/join.py" "$place/bin/bddcheck-join" || exit 2
PATH=$place/bin:$PATH
# The blocks of the page: 1, 2 and so on.
awk -v place="$place/blocks" '
    /^```$/ { file = ""; next }
    /^```/ { file = place "/" ++number; next }
    file { print > file }' "$top/docs/CLUSTER.md"

# A folder with the files that the recipes need, in which they are run.
begin() {
    mkdir "$place/$1" && cd "$place/$1" &&
        cp "$top/examples/adder8_ripple.bench" golden.bench && cp "$top/examples/adder8_wrong.bench" revised.bench || exit 2
    bddcheck --order cones golden.bench revised.bench >whole.txt
}
# Checks that a status is 0; if it is not, prints the last lines of the files that are named after it.
expect_success() {
    name=$1 status=$2 && shift 2
    if [ "$status" -eq 0 ]; then
        passed=$((passed + 1))
    else
        failed=$((failed + 1))
        echo "FAILED cluster: $name:"
        tail -n 50 "$@"
    fi
}
check() {
    cmp report.txt whole.txt
    expect_success "$1" $? report.txt whole.txt ./*.log
}
skip() {
    skipped=$((skipped + 1))
    echo "SKIPPED cluster: $*"
}

# ---- GNU parallel

# Debian's moreutils has another command of this name.
if parallel --version 2>/dev/null </dev/null | grep -q '^GNU parallel'; then
    PARALLEL_HOME=$place/.parallel && export PARALLEL_HOME
    begin 'by parallel'
    sh ../blocks/1 >parallel.log 2>&1 </dev/null
    check 'recipe 1, parallel on one machine'
    # What sshd would do on another machine: it sets SHELL, by which parallel runs a command there, and gives the words after the host to a shell.
    cat >"$place/bin/ssh" <<'END'
#!/bin/sh
while [ "${1#-}" != "$1" ]; do shift; done
shift
[ "$1" != -- ] || shift
SHELL=/bin/sh exec sh -c "$*"
END
    chmod +x "$place/bin/ssh"
    begin 'by ssh'
    sh ../blocks/2 >parallel.log 2>&1 </dev/null
    check 'recipe 2, parallel over ssh'
else
    skip 'GNU parallel is not installed (Debian: parallel), so recipes 1 and 2 were not tried'
fi

# ---- Bazel

begin 'by bazel'
shards=$(sed -n 's/^ *shard_count = \([0-9]*\),$/\1/p' ../blocks/6)
cp ../blocks/7 compare.sh && chmod +x compare.sh || exit 2
index=0
while [ "$index" -lt "${shards:?a number of shards}" ]; do
    TEST_SHARD_STATUS_FILE=$PWD/touched.$index TEST_SHARD_INDEX=$index TEST_TOTAL_SHARDS=$shards ./compare.sh golden.bench revised.bench >"share.$index"
    # The status has to be 1 if the share has a DIFFER line, and else 0.
    echo "$index $? $(grep -c ^DIFFER "share.$index") $(ls "touched.$index")" >>bazel.log
    index=$((index + 1))
done
bddcheck-join golden.bench share.* >report.txt
check 'recipes 6 and 7, shards as Bazel numbers them'
awk -v shards="$shards" '{ wrong += ($2 != ($3 > 0)) || ($4 != "touched." $1) } END { exit wrong || NR != shards }' bazel.log
expect_success 'the status and the touched file of each shard' $? bazel.log

# ---- Slurm

# Waits until a command succeeds, for so many seconds at most.
within() {
    seconds=$1 && shift
    until "$@" >/dev/null 2>&1; do
        seconds=$((seconds - 1))
        [ "$seconds" -gt 0 ] && sleep 1 || return 1
    done
}
# The daemons of a cluster of one machine, by this user and with files of their own.
start() {
    mkdir "$place/slurm" && chmod 755 "$place" "$place/slurm" && cd "$place/slurm" && mkdir state spool || return
    head -c 1024 /dev/urandom >key && chmod 400 key || return
    munged --foreground --force --key-file="$PWD/key" --socket="$PWD/munge" --pid-file="$PWD/munged.pid" --log-file="$PWD/munged.log" \
        --seed-file="$PWD/seed" >munged.out 2>&1 &
    daemons=$!
    within 10 munge -n -S "$PWD/munge" || return
    cat >slurm.conf <<END
ClusterName=tests
SlurmctldHost=$(hostname -s)(127.0.0.1)
SlurmctldPort=$1
SlurmdPort=$(($1 + 1))
SlurmUser=$(id -un)
SlurmdUser=$(id -un)
AuthType=auth/munge
AuthInfo=socket=$PWD/munge
CredType=cred/munge
StateSaveLocation=$PWD/state
SlurmdSpoolDir=$PWD/spool
SlurmctldPidFile=$PWD/slurmctld.pid
SlurmdPidFile=$PWD/slurmd.pid
ProctrackType=proctrack/linuxproc
TaskPlugin=task/none
JobAcctGatherType=jobacct_gather/none
SelectType=select/cons_tres
SelectTypeParameters=CR_Core_Memory
SchedulerParameters=batch_sched_delay=0,sched_min_interval=0
ReturnToService=2
MailProg=/bin/true
# The machine is said to be large enough for all tasks at once.
SlurmdParameters=config_overrides
NodeName=$(hostname -s) NodeAddr=127.0.0.1 CPUs=256 RealMemory=2000000
PartitionName=all Nodes=ALL Default=YES State=UP
END
    SLURM_CONF=$PWD/slurm.conf && export SLURM_CONF
    slurmctld -D -i >slurmctld.out 2>&1 &
    daemons="$! $daemons"
    # By the control groups that the machine has, or, if slurmd finds none that it can use, without them, as later versions can.
    for groups in '' CgroupPlugin=disabled; do
        echo "$groups" >cgroup.conf
        slurmd -D -N "$(hostname -s)" >slurmd.out 2>&1 &
        daemons="$! $daemons"
        within 20 sh -c 'sinfo -h -o %t | grep -qx idle' && return
    done
    return 1
}
none_wait() { [ -z "$(squeue -h)" ]; }
PATH=$PATH:/usr/sbin:/sbin
if command -v munged >/dev/null && command -v slurmctld >/dev/null && command -v slurmd >/dev/null && command -v sbatch >/dev/null; then
    # Two ports that probably no other process has.
    if start $((20000 + $$ % 10000 * 2)); then
        begin 'by slurm'
        cp ../blocks/3 shares.sh || exit 2
        { sh ../blocks/4 && within 240 none_wait && within 5 test -e joined.log; } >submitted.log 2>&1
        check 'recipes 3 and 4, an array of Slurm'
        mv share.7 share.seven && : >share.7
        { sh ../blocks/5 && within 120 none_wait; } >again.log 2>&1
        cmp share.7 share.seven
        expect_success 'recipe 5, a task that is submitted again' $? again.log
    else
        skip 'the daemons of Slurm do not start on this machine, so recipes 3 to 5 were not tried'
        tail -n 20 "$place"/slurm/*.out | sed 's/^/cluster: /'
    fi
else
    skip 'slurmctld, slurmd, sbatch or munged is not installed (Debian: slurm-wlm, munge), so recipes 3 to 5 were not tried'
fi

echo "cluster: $passed passed, $failed failed, $skipped skipped"
[ "$failed" -eq 0 ]
