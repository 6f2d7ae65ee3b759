#!/bin/bash
# Measures how what a turn costs grows with what stands: `replay` on scripts that leave quarantines and leases
# standing, or sweep them, and then `growth measure`. It prints ratios of this one run. It is run by hand, on a
# machine that does nothing else. docs/measures.md says what the numbers say.
#
#   tools/measure_growth.sh            by the proved programs
#   tools/measure_growth.sh IQ GROWTH  by these
#   FEW=60 TRIES=1 tools/measure_growth.sh      with fewer standing and fewer tries
#
# What counts is the processor's time. A script with few standing is run ten times for each run of the one with
# ten times as many, and of three tries the least counts.
top=$(cd "$(dirname "$0")/.." && pwd) || exit 1
. "$top/tools/measuring.sh"
few=${FEW:-6000}
tries=${TRIES:-3}
iq=${1:-$(proved_iq)} || exit 1
growth=${2:-$(proved_growth)} || exit 1
work=$(mktemp -d) || exit 1
trap 'rm -rf "$work"' EXIT
trap 'exit 130' HUP INT TERM

# Scripts that leave so many standing, each on a key of its own.
quarantines() {
    awk -v count="$1" 'BEGIN {
        print "members 1"
        for (s = 1; s <= count; s++) printf "write %d invalidate rename %d bob\nturn %d\n", s, s, s
        print "end"
    }'
}

leases() {
    awk -v count="$1" 'BEGIN {
        print "members 1"
        for (s = 1; s <= count; s++) printf "read %d profile:%d\nturn %d\n", s, s, s
        print "end"
    }'
}

# A script that leaves a tenth as many quarantines overdue, and sweeps them all.
swept() {
    awk -v count="$(($1 / 10))" 'BEGIN {
        print "members 1"
        for (s = 1; s <= count; s++) printf "write %d invalidate rename %d bob\nturn %d\n", s, s, s
        print "tick 100"
        for (s = 1; s <= count; s++) print "sweep 3"
        print "end"
    }'
}

# The processor's milliseconds that so many replays of a script take.
cpu_of() {
    local times=$1 script=$2 i TIMEFORMAT='%3U %3S'
    { time for ((i = 0; i < times; i++)); do
        "$iq" replay <"$script" >"$work/out" 2>"$work/err" || echo failed >>"$work/failed"
    done; } 2>"$work/time"
    [ ! -e "$work/failed" ] || fail "the replay of $script failed: $(cat "$work/err")"
    awk '{ printf "%d", ($1 + $2) * 1000 }' "$work/time"
}

# The least of some tries.
least_of() {
    local least='' try cpu
    for ((try = 0; try < tries; try++)); do
        cpu=$(cpu_of "$1" "$2") || exit 1
        [ -n "$least" ] && [ "$least" -le "$cpu" ] || least=$cpu
    done
    echo "$least"
}

# Measures a kind of script.
measure() {
    local ones tens
    "$1" "$few" >"$work/few.iq"
    "$1" "$((few * 10))" >"$work/many.iq"
    ones=$(least_of 10 "$work/few.iq") || exit 1
    tens=$(least_of 1 "$work/many.iq") || exit 1
    echo "$2: ten times as many $(ratio "$((tens * 10))" "$ones")"
}

echo "on $(nproc) processors, load average $(cut -d ' ' -f 1 /proc/loadavg):"
measure quarantines "replay, $few quarantines left standing"
measure leases "replay, $few leases left standing"
measure swept "replay, $((few / 10)) quarantines overdue and swept"
"$growth" measure || fail "growth measure ended with status $?"
