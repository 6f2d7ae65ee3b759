#!/bin/sh
# Checks the rows in a file from outside, by sqlite of Python: files that the store takes and refuses, what it writes,
# and what is left where it is killed. Checks the file of a server's cache too. By the program that ./iq has ready, or by
# the one that $IQ names. The last line is 'N passed, M failed', and the status is 1 where one failed. Takes a minute or
# two; KILLS in the environment says how often a server is killed, 5 times by default. Without python3 and its sqlite
# nothing is checked, and there are no counts.
top=$(cd "$(dirname "$0")/.." && pwd) || exit 1
. "$top/tools/program.sh"

if ! python3 -c 'import sqlite3' 2>/dev/null; then
    echo "store: no python3 with sqlite here, so the rows in a file aren't checked"
    exit 0
fi
IQ=${IQ:-$(ready_program)}
if [ -z "$IQ" ]; then
    # Without a program that is ready ./iq would prove one first, which takes far longer than a check may.
    echo "store: no proved program of these sources is ready; ./iq --prove builds one" >&2
    echo "0 passed, 1 failed"
    exit 1
fi
PYTHONDONTWRITEBYTECODE=1 exec python3 "$top/tools/check_store.py" "$IQ" ${KILLS:+"$KILLS"}
