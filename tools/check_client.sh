#!/bin/sh
# Runs the tests of clients/python against the program that ./iq has ready, or against the one that $IQ names.
# The last line is 'N passed, M failed', and the status is 1 where one failed. Takes 20 to 50 seconds; IQ_SECONDS in
# the environment says for how many of them eight threads read and write. Without python3 nothing is tried,
# and there are no counts.
top=$(cd "$(dirname "$0")/.." && pwd) || exit 1
. "$top/tools/program.sh"

# Says why nothing could be tried, and ends.
give_up() {
    echo "client: $1" >&2
    echo "0 passed, 1 failed"
    exit 1
}

if ! command -v python3 >/dev/null; then
    echo "client: no python3 here, so the client isn't tried"
    exit 0
fi
if [ -z "$IQ" ]; then
    # Without a program that is ready ./iq would prove one first, which takes far longer than a test may.
    ready_program >/dev/null || give_up "no proved program of these sources is ready; ./iq --prove builds one"
    IQ=$top/iq
fi
export IQ
cd "$top/clients/python" || give_up "clients/python is not there"
said=$(mktemp) || exit 1
trap 'rm -f "$said"' EXIT
trap 'exit 130' HUP INT TERM
PYTHONDONTWRITEBYTECODE=1 python3 -W error::ResourceWarning -m unittest discover -t . -s tests >"$said" 2>&1
status=$?
cat "$said"
# The counts are those of unittest: 'Ran 109 tests in ..', and 'FAILED (failures=1, errors=2)' where some failed. A
# test may fail in several places, so no more failed than ran.
awk -v status="$status" '
    /^Ran [0-9]+ tests? in / { ran = $2 }
    /^FAILED \(/ {
        while (match($0, /(failures|errors|unexpected successes)=[0-9]+/)) {
            word = substr($0, RSTART, RLENGTH)
            sub(/.*=/, "", word)
            failed += word
            $0 = substr($0, RSTART + RLENGTH)
        }
    }
    END {
        if (failed > ran) failed = ran
        if (status != 0 && failed == 0) failed = 1
        if (status == 0 && ran == 0) failed = 1
        passed = ran - failed
        print (passed > 0 ? passed : 0) " passed, " failed + 0 " failed"
        exit failed > 0
    }' "$said"
