#!/bin/bash
# gdb through the bridge, with the built program: packets that are wrong or drawn, and, as far as what that wants is installed,
# sessions beside QEMU.
#
#     gdb/check.sh [PROGRAM]
#
# PROGRAM is the built `tcf`; if left out, crates/tcf/out/tcf. The status is 1 where something fails. What is left out is told
# in one line.
set -u
cd "$(dirname "$0")/.." || exit 1
export PYTHONDONTWRITEBYTECODE=1
program=$(realpath "${1:-crates/tcf/out/tcf}")
if [ ! -x "$program" ]; then
    echo "there is no program $program"
    exit 1
fi
status=0

# Runs a script; where it succeeds its last line is enough.
try() {
    local said
    if said=$("$@" 2>&1); then
        echo "$1: $(tail -n 1 <<<"$said")"
    else
        echo "$1 FAILED"
        echo "$said"
        status=1
    fi
}

try gdb/hostile.py "$program"
lacking=
for name in gdb-multiarch qemu-riscv32 riscv64-unknown-elf-gcc; do
    command -v "$name" >/dev/null || lacking="$lacking $name"
done
if [ -z "$lacking" ]; then
    try gdb/compare.py "$program"
    try gdb/play.py "$program"
else
    echo "left out: gdb/compare.py and gdb/play.py, since these are not installed:$lacking"
fi
exit $status
