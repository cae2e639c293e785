# shellcheck shell=sh
# For bin/start, in the repository alone; no release has it. Builds what is not built yet, by tools/build: rt proves the program and the
# crates that it is built on, links it and runs it once; only then it stands in target/bin. Standard error is told how far that is; what rt
# says goes to a log. Standard output gets nothing.

# shellcheck disable=SC2154 # bin/start has set root
log=$root/target/build.log
lock=$root/target/build.lock

# One start builds, another waits for it: the lock is that of the file, held by rt as well, so that it is free once all have ended.
build() { # PROGRAM...
    for tool in rt flock setsid; do
        command -v "$tool" >/dev/null || fail "not built yet; building it needs $(named "$tool"), which is not on the PATH"
    done
    { mkdir -p "$root/target/bin" && touch "$log" "$lock"; } 2>/dev/null || fail "not built yet, and $root/target cannot be written"
    {
        flock -n 7 || { say 'another start builds it; waiting' && flock 7; } || fail 'not built yet, and no lock can be had'
        # shellcheck disable=SC2046 # a word for each crate
        prove $(lacking "$@")
    } 7<"$lock" 6>&2
}

named() { # TOOL
    if [ "$1" = rt ]; then echo "the Rattle kit's rt"; else echo "$1 of Debian's package util-linux"; fi
}

lacking() { # PROGRAM...: the crates of those that are not there
    for one do
        [ -x "$root/target/bin/run_$one" ] || echo "run_$one"
    done
}

prove() { # CRATE...
    [ $# != 0 ] || return 0
    began=$(date +%s) proved=0 crates=$(how_many "$@") rt=
    say "not built yet; it is proved first, $crates crates, which takes some $(((crates + 4) / 5)) minutes on two processors"
    trap break_off HUP INT TERM
    (trap - PIPE && exec setsid "$root/tools/build" "$@") </dev/null >"$log" 2>&1 6>&- & # a group of its own, to be ended whole
    rt=$!
    while kill -0 "$rt" 2>/dev/null; do
        { sleep 1; } 2>/dev/null # some shells have a word of their own on signals
        tell
    done
    wait "$rt"
    ended=$?
    tell
    trap - HUP INT TERM
    [ $ended = 0 ] || fail "the build has failed; what rt said is in $log"
    say "built in $(($(date +%s) - began)) s"
}

break_off() {
    exec 2>&6
    [ -z "$rt" ] || kill -s TERM -- "-$rt" 2>/dev/null || kill -s TERM "$rt" 2>/dev/null
    say 'not built: broken off'
    exit 130
}

# The crates that rt has proved since this was last asked.
tell() {
    for crate in $(awk '/^crate .*: modules / { crate = $2 } /^logic=proved / { print crate }' "$log" | tail -n "+$((proved + 1))"); do
        proved=$((proved + 1))
        say "$proved of $crates crates proved: ${crate%:}"
    done
}

# They and the crates that they are built on. In crates.txt a crate names only crates above it.
how_many() { # CRATE...
    awk -F: -v wanted="$*" '
        { name[NR] = $1; needs[NR] = $2 }
        function want(names,    list, i) { for (i = split(names, list, " "); i > 0; i--) in_it[list[i]] }
        END { want(wanted); for (i = NR; i > 0; i--) if (name[i] in in_it) { count++; want(needs[i]) }; print count + 0 }
    ' "$root/crates.txt"
}
