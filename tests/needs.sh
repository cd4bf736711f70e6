#!/bin/sh
# Installs the Debian packages that parts of tests/run.sh need and that are missing here. If that cannot be done (not as root, no
# apt-get, no registry that answers) it prints the one command to type, and which parts will be skipped or fail until then.
# Nothing of it is needed to compare netlists. .ci/run calls it first.
#
# usage: tests/needs.sh
#
# Status 0: nothing is missing. 1: something still is.
PATH=$PATH:/usr/sbin:/sbin

# Each row has a package, the part that needs it, and the commands in it; one of several names is divided from the others by a bar.
rows='python3 all python3
gcc refusals,growths cc
libc6-dev refusals,growths cc
git edits git
bsdutils devices script
man-db shipped man
yosys flows,shipped yosys
berkeley-abc flows berkeley-abc|yosys-abc|abc
chromium page chromium|chromium-browser|google-chrome
graphviz page dot
black scripts black
mypy scripts mypy
parallel cluster parallel
munge cluster munged
slurm-wlm cluster slurmctld
slurm-wlm cluster slurmd
slurm-wlm cluster sbatch'

has() {
    case $1 in
    # Debian's moreutils has another command of this name.
    parallel) parallel --version 2>/dev/null </dev/null | grep -q '^GNU parallel' && return ;;
    *) for name in $(echo "$1" | tr '|' ' '); do command -v "$name" >/dev/null && return; done ;;
    esac
    return 1
}
# The packages that are missing, each once, and a line for each command.
missing() {
    packages='' lines=''
    while read -r package parts commands; do
        has "$commands" && continue
        case " $packages " in *" $package "*) ;; *) packages=${packages:+$packages }$package ;; esac
        lines="$lines
needs: there is no command $(echo "$commands" | sed 's/|/ or /g'), which the part $parts needs"
    done <<END
$rows
END
    [ -n "$packages" ]
}
missing || { echo 'needs: nothing is missing' && exit 0; }
command='apt-get install --no-install-recommends'
if [ "$(id -u)" -eq 0 ] && command -v apt-get >/dev/null; then
    echo "needs: $command $packages"
    answers='-o Acquire::Retries=1 -o Acquire::http::Timeout=30 -o Acquire::https::Timeout=30 -o DPkg::Lock::Timeout=60'
    # The names of packages, divided by blanks, and options without any are words of their own.
    { apt-get $answers -qq update && DEBIAN_FRONTEND=noninteractive $command $answers -qq -y $packages; } >&2 </dev/null
    missing || { echo 'needs: all of it is installed now' && exit 0; }
fi
echo "${lines#?}"
if command -v apt-get >/dev/null; then
    echo "needs: type this to install it: $([ "$(id -u)" -eq 0 ] || echo 'sudo ')$command $packages"
else
    echo "needs: install it by the packages of this system; Debian has it in $packages"
fi
exit 1
