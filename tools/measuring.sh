# What the measuring scripts share. It is read by bash, with $top the top of the repository.

. "$top/tools/program.sh"

fail() {
    echo "$(basename "$0"): $1" >&2
    exit 1
}

# The proved program of these sources.
proved_iq() {
    ready_program || fail "no proved program of these sources is here; ./iq --prove builds it"
}

# The proved program that measures growth, which has to be newer than its sources and those below.
proved_growth() {
    local program=$top/crates/growth/out/growth builds="(cd crates/growth && rt run -- try && touch out/growth)" newer
    [ -x "$program" ] || fail "no proved program is at $program; $builds builds it"
    newer=$(find "$top"/crates/{growth,key_shard,lease_table,entry_table,case_tables,rows_model}/{src,specs,proofs} -newer "$program" 2>/dev/null | head -n 1)
    [ -z "$newer" ] || fail "$newer is newer than the proved program; $builds builds it"
    echo "$program"
}

# One number over another, with two places behind the point.
ratio() {
    awk -v one="$1" -v other="$2" 'BEGIN { if (other > 0) printf "%.2f", one / other; else printf "none" }'
}
