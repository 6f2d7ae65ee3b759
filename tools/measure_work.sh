#!/bin/bash
# Measures `work 100000 500000 W 16 7` on 1, 2 and 4 workers, and prints ratios of this one run. It is run by
# hand, on a machine that does nothing else. docs/measures.md says what the numbers say.
#
#   tools/measure_work.sh              by the proved program
#   tools/measure_work.sh PROGRAM      by this one
#   SESSIONS=5000 TRIES=1 tools/measure_work.sh      with fewer sessions and tries
#   MEMBERS=100 tools/measure_work.sh                where four of five reads hit
#
# The program tells no times, so they are seen from outside, by a look each 5 milliseconds at its number of
# threads and at what it has printed:
#
#   start      the rows and the plans are made, by one thread
#   load       there are more threads than one: the sessions are run
#   audit      there is one again, until the summary comes: the audit, and what the summary counts
#   (end)      the memory is given back
#
# One worker is no thread of its own, so there the load is what is left of the time until the summary without
# the start and the audit of the two workers' run, which do the same for any number of workers. Of three
# tries the one with the shortest load counts.
top=$(cd "$(dirname "$0")/.." && pwd) || exit 1
. "$top/tools/measuring.sh"
members=${MEMBERS:-100000}
sessions=${SESSIONS:-500000}
tries=${TRIES:-3}
program=${1:-$(proved_iq)} || exit 1
[ -x "$program" ] || fail "$program isn't a program"

# Microseconds.
now() {
    echo "${EPOCHREALTIME/[^0-9]/}"
}

# Looks at the program: how many threads it has, and its peak of resident memory, in KiB.
look() {
    local key value rest
    threads=0
    while read -r key value rest; do
        case $key in
        VmHWM:) peak=$value ;;
        Threads:) threads=$value ;;
        esac
    done 2>/dev/null <"/proc/$pid/status"
}

# Runs the load with so many sessions and workers. Sets when it was started, when it was first and last seen
# with more threads than one, when the summary came, and the peak.
run_load() {
    local line last='' got
    threaded='' joined='' told='' peak=0
    started=$(now)
    exec 3< <(exec "$program" work "$members" "$1" "$2" 16 7)
    pid=$!
    while :; do
        IFS= read -r -t 0.005 line <&3
        got=$?
        [ "$got" = 0 ] || [ "$got" -gt 128 ] || break
        if [ "$got" = 0 ]; then
            told=${told:-$(now)}
            last=$line
        fi
        look
        if [ "$threads" -gt 1 ]; then
            threaded=${threaded:-$(now)}
            joined=$(now)
        fi
    done
    exec 3<&-
    wait "$pid"
    [ "$last" = "audit clean" ] || fail "work $members $1 $2 16 7 ended with '$last'"
}

# Keeps the try of this number of workers with the shortest load: start, load and audit, and the peak.
keep_try() {
    local workers=$1 load
    if [ "$workers" = 1 ]; then
        load=$((told - started - start[2] - audit[2]))
    else
        [ -n "$threaded" ] || fail "the threads of $workers workers weren't seen: too few sessions"
        load=$((joined - threaded))
    fi
    [ "$load" -gt 0 ] || fail "the load of $workers workers is too short to be seen: too few sessions"
    [ -z "${loads[$workers]}" ] || [ "$load" -lt "${loads[$workers]}" ] || return 0
    loads[$workers]=$load
    peaks[$workers]=$peak
    if [ "$workers" != 1 ]; then
        start[$workers]=$((threaded - started))
        audit[$workers]=$((told - joined))
    fi
}

# A line of the table.
tell() {
    local workers=$1 from=$1
    [ "$workers" != 1 ] || from=2
    awk -v workers="$workers" -v sessions="$sessions" -v load="${loads[$workers]}" -v one="${loads[1]}" \
        -v audit="${audit[$from]}" -v start="${start[$from]}" -v peak="${peaks[$workers]}" -v idle="$idle" '
        BEGIN {
            whole = start + load + audit
            printf "%-8d %-18.0f %-15.2f %-15.2f %-15.2f %.0f\n", workers, sessions * 1000000 / load,
                one / load, audit / load, audit / whole, (peak - idle) * 1024 / sessions
        }'
}

loads=() peaks=() start=() audit=()
# So short a run is seen a few times alone, so the greatest peak of some counts.
idle=0
for ((try = 0; try < 5; try++)); do
    run_load 0 1
    [ "$peak" -le "$idle" ] || idle=$peak
done
for workers in 2 4 1; do
    for ((try = 0; try < tries; try++)); do
        run_load "$sessions" "$workers"
        keep_try "$workers"
    done
done
echo "work $members $sessions W 16 7 on $(nproc) processors, load average $(cut -d ' ' -f 1 /proc/loadavg):"
echo "workers  sessions a second  to one worker   audit to load   audit to whole  bytes a session"
for workers in 1 2 4; do
    tell "$workers"
done
