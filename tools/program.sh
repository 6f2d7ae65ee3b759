# What the program is made of, and which one is ready to run. Other scripts read this, with `top` set.

# The crates that the program is made of.
program_crates() {
    awk -F: '
        /^[a-z]/ { split($1, head, " "); deps[head[1]] = $2 }
        END {
            todo[1] = "iq"
            for (at = last = 1; at <= last; at++) {
                name = todo[at]
                if (!(name in deps) || name in seen) continue
                seen[name]
                print name
                count = split(deps[name], below, " ")
                for (number = 1; number <= count; number++) todo[++last] = below[number]
            }
        }' "$top/crates.txt" | LC_ALL=C sort
}

# A sum of all their sources and of their lines in crates.txt: the same where each file has the same name and content.
sources_sum() {
    (
        cd "$top" || exit
        names=$(program_crates)
        folders=
        for crate in $names; do
            grep "^$crate[ :]" crates.txt
            folders="$folders crates/$crate/src crates/$crate/specs crates/$crate/proofs"
        done
        # (not every crate has all three)
        find $folders -type f 2>/dev/null | LC_ALL=C sort | xargs sha256sum
    ) | sha256sum | cut -d ' ' -f 1
}

# The sum of one file.
sum_of() {
    sha256sum <"$1" | cut -d ' ' -f 1
}

# What the file of sums in dist/ says of the program there: the sum of its `sources` or of the `program`, or the `kit`.
shipped_sum() {
    sed -n "s/^$1 //p" "$top/dist/iq-x86_64-linux.sums" 2>/dev/null
}

# Prints the path of a proved program of these sources: that of dist/, unpacked into out/, or the one that
# `./iq --prove` left in out/proved/. Fails with 1 where there is none, and with 2 and one line where dist/ is spoilt.
ready_program() {
    sources=$(sources_sum)
    if [ "$(shipped_sum sources)" = "$sources" ]; then
        unpack_shipped || return 2
        echo "$top/out/iq"
    elif [ -x "$top/out/proved/iq" ] && [ "$(cat "$top/out/proved/sources" 2>/dev/null)" = "$sources" ]; then
        echo "$top/out/proved/iq"
    else
        return 1
    fi
}

# Unpacks the program of dist/, once, and looks each time whether it is the one that its sums name.
unpack_shipped() {
    wanted=$(shipped_sum program)
    [ -x "$top/out/iq" ] && [ "$(sum_of "$top/out/iq")" = "$wanted" ] && return
    mkdir -p "$top/out" && part=$(mktemp "$top/out/iq.XXXXXX") || return
    gzip -dc "$top/dist/iq-x86_64-linux.gz" >"$part" 2>/dev/null
    if [ "$(sum_of "$part")" != "$wanted" ]; then
        rm -f "$part"
        echo "iq: dist/iq-x86_64-linux.gz is cut, or isn't the program that dist/iq-x86_64-linux.sums names; git checkout dist brings it back" >&2
        return 1
    fi
    chmod +x "$part" && mv "$part" "$top/out/iq"
}
