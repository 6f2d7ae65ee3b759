#!/bin/sh
# Checks the front door: what ./iq prints and how it ends, by the program of dist/ and, where a source was changed,
# with no proof, on the examples and on those of docs/script.md; what it says of a program that was spoilt; and the
# pictures of the examples. The last line is 'N passed, M failed', and the status is 1 where one failed. Takes
# three runs of `rt try`, a minute or two each.
top=$(cd "$(dirname "$0")/.." && pwd) || exit 1
cd "$top" || exit 1
work=$(mktemp -d) || exit 1
trap 'rm -rf "$work"' EXIT
trap 'exit 130' HUP INT TERM
passed=0
failed=0

# Counts a check: its name, and its status.
count() {
    if [ "$2" = 0 ]; then
        passed=$((passed + 1))
        echo "front: $1: as it must be"
    else
        failed=$((failed + 1))
        echo "front: $1: NOT as it must be"
    fi
}

# Runs an iq, under a folder, on a script and the words behind it, and keeps what it printed and its status.
run_iq() {
    folder=$1
    script=$2
    shift 2
    "$folder/iq" "$@" <"$script" >"$work/out" 2>"$work/err"
    status=$?
}

# Whether it ended with this status, this output, and these lines on standard error, less the one of ./iq.
ended() {
    grep -v '^iq: not proved: ' "$work/err" >"$work/told"
    printf "$3" | cmp -s - "$work/told" && cmp -s "$2" "$work/out" && [ "$status" = "$1" ]
}

# Whether it printed what an example of the page says: all of it, or the last lines.
ends_as() {
    if [ -f "$1.out" ]; then
        ended 0 "$1.out" ""
    else
        tail -n "$(wc -l <"$1.end")" "$work/out" | cmp -s - "$1.end" && [ "$status" = 0 ]
    fi
}

says_unproved() {
    [ "$(grep -c '^iq: not proved: ' "$work/err")" = 1 ]
}

# A case of `rt try --cases`: a script, what it prints, the status that is wanted, and further words.
add_case() {
    cp "$2" "$work/cases/$1"
    cp "$3" "$work/cases/$1.stdout"
    echo "$1 $4" >>"$work/wanted"
    [ -z "$5" ] || echo "$5" >"$work/cases/$1.args"
}

check_cases() {
    mkdir "$work/cases"
    for script in examples/*.iq; do
        add_case "$(basename "$script" .iq)" "$script" "${script%.iq}.out" 0 ""
    done
    for script in "$work"/page/*.iq; do
        [ ! -f "${script%.iq}.out" ] || add_case "$(basename "$script" .iq)" "$script" "${script%.iq}.out" 0 ""
    done
    add_case faulty_script "$work/faulty" /dev/null 2 ""
    add_case further_word "$work/faulty" /dev/null 1 more
    (cd "$work/changed/crates/iq" && rt try --cases "$work/cases" -- replay) >"$work/said" 2>&1
    while read -r name wanted; do
        grep -q "^case=$name run=ended status=$wanted .*output=expected" "$work/said"
        count "$name, with no proof" $?
    done <"$work/wanted"
    [ "$failed" = 0 ] || cat "$work/said"
}

check_unproved() {
    run_iq "$work/changed" examples/stale_refill.iq replay
    ended 0 examples/stale_refill.out "" && says_unproved
    count "./iq replay, a source being changed" $?
    run_iq "$work/changed" /dev/null
    ended 1 /dev/null 'usage\n' && says_unproved
    count "./iq without words, a source being changed" $?
}

# Where a source was changed, what needs threads, connections or files proves and builds. The rt here says what it was
# told, and fails.
check_builds() {
    mkdir "$work/failing"
    printf '#!/bin/sh\necho "$*" >>"%s"\nexit 1\n' "$work/asked" >"$work/failing/rt"
    chmod +x "$work/failing/rt"
    found=$PATH
    for words in "work 3 0 1 1 1" "warm 3 0 1 1 1" "serve 127.0.0.1:0 1 1 1 3" "replay --db rows.db"; do
        : >"$work/asked"
        PATH=$work/failing:$found
        run_iq "$work/changed" /dev/null $words
        PATH=$found
        [ "$status" = 70 ] && [ "$(cat "$work/asked")" = ci ] && ! says_unproved
        count "./iq $words proves and builds, a source being changed" $?
    done
}

# A clone as it comes runs the program of dist/ at once: it compiles and builds nothing, of which it would say so. No
# time is taken here, since other work may keep the processor busy.
check_clone() {
    run_iq "$work/clone" examples/stale_refill.iq replay
    ended 0 examples/stale_refill.out "" && ! says_unproved
    count "./iq replay in a new clone, with nothing built" $?
    rm -rf "$work/clone/out"
    began=$(date +%s)
    "$work/clone/iq" serve 127.0.0.1:0 1 1 1 3 >"$work/out" 2>"$work/err" &
    server=$!
    until grep -q '^ready$' "$work/out" || [ -s "$work/err" ] || [ $(($(date +%s) - began)) -gt 60 ]; do
        sleep 0.1
    done
    grep -q '^ready$' "$work/out" && [ ! -s "$work/err" ]
    count "./iq serve in a new clone says ready, with nothing built" $?
    kill "$server" 2>/dev/null
}

# Whether ./iq refuses the program of dist/ in one line, and runs nothing.
refuses() {
    run_iq "$work/clone" examples/stale_refill.iq replay
    [ "$status" = 70 ] && [ ! -s "$work/out" ] && [ "$(grep -c '^iq: dist/' "$work/err")" = 1 ] && [ "$(wc -l <"$work/err")" = 1 ]
    count "./iq, the program of dist/ being $1" $?
    ! (cd "$work/clone" && tools/ship --check) >"$work/said" && grep -q 'NOT SO: dist/iq-x86_64-linux.gz is cut' "$work/said"
    count "tools/ship --check, the program of dist/ being $1" $?
}

check_spoilt() {
    shipped=$work/clone/dist/iq-x86_64-linux.gz
    cp "$shipped" "$work/whole.gz"
    rm -rf "$work/clone/out"
    head -c 1000 "$work/whole.gz" >"$shipped"
    refuses "cut"
    gzip -dc "$work/whole.gz" | sed 's/profile/profits/' | gzip -n >"$shipped"
    refuses "of other bytes"
}

check_proved() {
    for script in examples/*.iq; do
        run_iq "$top" "$script" replay
        ended 0 "${script%.iq}.out" ""
        count "$(basename "$script" .iq), proved" $?
    done
    for script in "$work"/page/*.iq; do
        run_iq "$top" "$script" replay
        ends_as "${script%.iq}"
        count "$(basename "$script" .iq), proved" $?
    done
    run_iq "$top" /dev/null
    ended 1 /dev/null 'usage\n'
    count "./iq without words, proved" $?
    run_iq "$top" "$work/faulty" replay
    ended 2 /dev/null 'script line 1 form\n'
    count "a faulty script, proved" $?
    check_help
    check_served
}

# The help of each command names its own words and options, and that of all names each command.
check_help() {
    run_iq "$top" /dev/null --help
    cp "$work/out" "$work/all"
    while read -r command options words; do
        run_iq "$top" /dev/null "$command" --help
        found=$(sed -n -e "s/^Usage: $command //p" "$work/out" | tr -d '<>')
        listed=$(sed -n -e 's/^ *\(-., \)\{0,1\}\(--[a-z]*\).*/\2/p' "$work/out" | tr '\n' ',')
        wanted=$(echo "[OPTIONS] $words" | sed 's/ $//')
        [ "$status" = 0 ] && [ "$found" = "$wanted" ] && [ "$listed" = "$options," ] && grep -q "^  $command " "$work/all"
        count "./iq $command --help" $?
    done <<END
replay --db,--help
work --db,--help members sessions workers shards seed
warm --db,--help members sessions workers shards seed
serve --db,--warm,--help addr conns workers shards members
END
}

# Clients over the loopback, the page's conversations among them.
check_served() {
    if ! command -v python3 >/dev/null; then
        echo "front: no python3 here, so no client is played"
        return
    fi
    for check in $(python3 tools/play_clients.py --list); do
        python3 tools/play_clients.py out/iq docs/protocol.md "$check"
        count "served: $check" $?
    done
    python3 tools/drawn_streams.py out/iq 2000
    count "served: drawn streams, as the model" $?
    python3 tools/lying_clients.py out/iq 100
    count "served: clients that lie" $?
    python3 tools/play_plain.py out/iq
    count "served: plain commands" $?
}

# A picture is well-formed, and has a row for each line of the output but the last.
check_picture() {
    python3 tools/draw_replay.py "$1" "$2" >"$work/picture.svg" && python3 - "$work/picture.svg" "$2" <<'END'
import sys
import xml.etree.ElementTree as tree

rows = [it for it in tree.parse(sys.argv[1]).iter() if it.get("class") == "turn"]
sys.exit(len(rows) != len(open(sys.argv[2]).readlines()) - 1)
END
}

check_pictures() {
    if ! command -v python3 >/dev/null; then
        echo "front: no python3 here, so no picture is drawn"
        return
    fi
    for script in examples/*.iq; do
        check_picture "$script" "${script%.iq}.out"
        count "the picture of $(basename "$script" .iq)" $?
    done
    python3 tools/draw_replay.py examples/stale_refill.iq examples/stale_refill.out | cmp -s - docs/stale_refill.svg
    count "docs/stale_refill.svg" $?
}

printf 'members 0\nend\n' >"$work/faulty"
mkdir "$work/page"
if command -v python3 >/dev/null; then
    python3 tools/doc_examples.py docs/script.md "$work/page"
    count "the examples of docs/script.md" $?
else
    echo "front: no python3 here, so the examples of docs/script.md aren't run"
fi
# The clone as it comes, and one of which a byte was changed.
mkdir "$work/clone" "$work/changed"
tar --exclude=out -cf - iq crates.txt crates tools dist HANDLES | (cd "$work/clone" && tar -xf -)
tar --exclude=out -cf - iq crates.txt crates tools dist HANDLES | (cd "$work/changed" && tar -xf -)
printf '\n' >>"$work/changed/crates/iq/src/main.rt"
check_clone
check_spoilt
check_builds
check_cases
check_unproved
check_proved
check_pictures
echo "$passed passed, $failed failed"
[ "$failed" = 0 ]
