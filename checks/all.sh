#!/bin/bash
# What can be checked with python3 and the built program alone: the pages and crates.txt; and gdb through the bridge, as far as
# what that wants is installed.
#
#     checks/all.sh [PROGRAM]
#
# PROGRAM is the built `tcf`; if left out, crates/tcf/out/tcf. Each check prints one line, or all that it says where it fails; then
# the status is 1.
set -u
cd "$(dirname "$0")/.." || exit 1
export PYTHONDONTWRITEBYTECODE=1
program=$(realpath "${1:-crates/tcf/out/tcf}")
status=0

try() {
    local said
    if said=$("$@" 2>&1); then
        echo "$1: $(tail -n 1 <<<"$said")"
    else
        echo "$1 FAILED"
        echo "$said"
        status=1
    fi
}

try checks/believe.py
try checks/cited.py
try checks/layers.py
if [ -x "$program" ]; then
    try checks/commands.py --fast --program "$program"
    gdb/check.sh "$program" || status=1
else
    echo "there is no program $program"
    status=1
fi
exit $status
