# shellcheck shell=bash disable=SC2154,SC2030,SC2031 # tests/run has set the names; a PATH is for one subshell alone
# The parts of tests/run: a function each. tests/run has set
#   $archive, $program, $show_book, $hub_vectors, $hints   what is tested, by its whole path
#   $out, $bin, $log                                       what is built for the tests, its programs, the logs
#   $scratch                                               an empty folder for the part that runs
#   $seed
# Status 0: passed. 77: it cannot run here, and the last line that it prints says why. Any other: failed.

# ---- what is stored in the repository is what the models make

# Names that nothing uses, width, scripts, crates.txt, must-fail edits, the picture of the crates; and planted faults are found.
text() {
    local status=0
    tests/text.py "$scratch" || status=$?
    [ $status = 0 ] || [ $status = 77 ] || return $status
    tests/text.py
}

book_model() {
    python3 tests/book/test_model.py && python3 tests/book/test_page.py
}

# Each file that the command writes into a folder (put behind its words) stands in crates/, with the same bytes.
stored() { # COMMAND...
    local file count=0
    "$@" "$scratch/crates" >"$scratch/made" || { cat "$scratch/made" && return 1; }
    for file in "$scratch"/crates/*/*; do
        cmp "$file" "${file#"$scratch"/}" || return 1
        count=$((count + 1))
    done
    echo "$count files are as stored"
}

stored_sittings() {
    "$bin/make_sittings" 1 300 tests/hub/examples.txt "$scratch/stdin" "$scratch/stdout" &&
        cmp "$scratch/stdin" crates/run_sittings/stdin && cmp "$scratch/stdout" crates/run_sittings/stdout
}

# The output that `rt ci` expects of plot_hub, plot_hub_hints and show_book.
stored_output() {
    local sitting=crates/run_plot_hub_hints/stdin
    "$bin/reference" <crates/run_plot_hub/stdin | cmp - crates/run_plot_hub/stdout &&
        "$bin/reference" <$sitting >"$scratch/key" &&
        python3 tests/hints.py $sitting "$scratch/key" | cmp - crates/run_plot_hub_hints/stdout &&
        python3 tests/book/show.py <crates/run_show_book/stdin | cmp - crates/run_show_book/stdout
}

reference_tests() {
    CARGO_TARGET_DIR=$out cargo test -q --release --offline --manifest-path tests/reference/Cargo.toml >"$log/reference_tests" 2>&1 ||
        { tail -n 60 "$log/reference_tests" && return 1; }
    grep '^test result: ok. [1-9]' "$log/reference_tests" # none at all would show nothing
}

# The specification as one page: whole, no link dead; and it is refused where it would not be.
specification() {
    tests/specification.py "$scratch"
}

# ---- header and archive

# The header by itself, in C and in C++; its version is that of VERSION.
header() {
    local version macros
    gcc -std=c99 -Wall -Wextra -Wpedantic -Werror -fsyntax-only -x c include/plot_hub.h &&
        gcc -std=c++11 -Wall -Wextra -Wpedantic -Werror -fsyntax-only -x c++ include/plot_hub.h || return 1
    version=$(cat VERSION)
    macros=$(echo 'PLOT_HUB_VERSION PLOT_HUB_VERSION_MAJOR PLOT_HUB_VERSION_MINOR PLOT_HUB_VERSION_PATCH' |
        gcc -E -P -include include/plot_hub.h - | tail -n 1)
    [ "$macros" = "\"$version\" ${version//./ }" ] || { echo "VERSION is $version, but the header has $macros" && return 1; }
}

# The header says that the call allocates nothing and opens no file: then the archive names no function that does.
needs_nothing() {
    # Only what the call reaches is taken from the archive; readelf then lists what it has and what it still needs.
    gcc -r -nostdlib -Wl,-u,plot_hub_run "$archive" -o "$scratch/reached.o" && readelf -Ws "$scratch/reached.o" >"$log/symbols" || return 1
    awk '$7 == "UND" && $8 != "" { print $8 }' "$log/symbols" | sort -u >"$log/needed"
    echo "the archive needs: $(xargs <"$log/needed")"
    if ! grep -q ' plot_hub_run$' "$log/symbols" || grep -qx 'plot_hub_run' "$log/needed"; then
        echo "plot_hub_run is not in the archive"
        return 1
    fi
    ! grep -vxE 'memcpy|memmove|memset|memcmp' "$log/needed"
}

# How deep the call goes, held to what the header promises.
stack() {
    tests/c/stack "$archive" "$bin" "$scratch"
}

has_valgrind() {
    valgrind -q true && return 0
    echo "there is no valgrind that runs; on Debian: apt-get install valgrind"
    return 1
}

# One busy input, held to the figure stored in bench/instructions.
instructions() {
    has_valgrind || return 77
    PLOT_HUB_ARCHIVE=$archive bench/run --check
}

# Memory that is read before it was written is seen by valgrind only.
under_valgrind() {
    local input=$scratch/input
    has_valgrind || return 77
    PLOT_HUB_CALLER=$out/caller_plain PLOT_HUB_UNDER='valgrind -q --error-exitcode=9' "$bin/compare" caller 12 "$seed" &&
        "$bin/history" random "$seed" 5 >"$input" && "$bin/history" damaged "$seed" 5 >>"$input" &&
        valgrind -q --error-exitcode=9 "$program" <"$input" >"$scratch/printed" &&
        "$bin/reference" <"$input" | cmp - "$scratch/printed"
}

# ---- the programs, started by bin/

# A folder like the repository's: bin/, and the tested programs where bin/ looks for them.
tree() { # FOLDER
    mkdir -p "$1/bin" "$1/tools" "$1/target/bin" && cp bin/* "$1/bin/" && cp tools/build "$1/tools/" && cp VERSION KIT crates.txt "$1/" &&
        ln -s "$program" "$1/target/bin/run_plot_hub" && ln -s "$show_book" "$1/target/bin/run_show_book" &&
        ln -s "$hints" "$1/target/bin/run_plot_hub_hints"
}

# Words, files, exit status, messages, hints, of both commands and with each shell.
command_cases() {
    tree "$scratch/tree" && python3 tests/command.py "$scratch/tree" "$bin/reference" "$bin/history" "$bin/bench_inputs" "$seed"
}

# What the hints say of each line.
hints_compare() {
    python3 tests/hints.py --compare "$hints" "$bin/reference" "$bin/history" "$seed"
}

# Books, accepted and refused, against the model; the last is longer than any.
show_book_prints() {
    local book
    tree "$scratch/tree" || return 1
    : >"$scratch/nothing.book" && printf '\0' >"$scratch/short.book" && printf '\0\0' >"$scratch/empty.book"
    head -c 70000 /dev/zero >"$scratch/long.book"
    for book in examples/*.book "$scratch"/*.book; do
        python3 tests/book/show.py <"$book" >"$scratch/expected" || return 1
        "$scratch/tree/bin/show_book" <"$book" 2>"$scratch/said" | cmp - "$scratch/expected" || return 1
        [ ! -s "$scratch/said" ] || { cat "$scratch/said" && return 1; }
    done
    python3 tests/book/settings.py "$scratch/tree/bin/show_book"
}

# bin/ works through a link and from another folder.
starters() {
    local name input expected links=$scratch/links
    tree "$scratch/tree" && mkdir "$links" || return 1
    for name in plot_hub show_book; do
        input=$PWD/crates/run_$name/stdin expected=$PWD/crates/run_$name/stdout
        ln -s "../tree/bin/$name" "$links/beside" && ln -s "$links/beside" "$links/$name" || return 1 # a link to a link
        (cd / && "$links/$name" "$input") | cmp - "$expected" || return 1
        (cd "$links" && "./$name" <"$input") | cmp - "$expected" || return 1
        (cd "$links" && PATH=$links:$PATH && "$name" <"$input") | cmp - "$expected" || return 1
        (cd "$scratch/tree" && sh "bin/$name" <"$input") | cmp - "$expected" || return 1
        rm "$links/beside"
    done
}

# ---- the release

# A release is made, checked, unpacked elsewhere and used there without the kit.
release() {
    local file
    make_release "$scratch/one" && (umask 077 && make_release "$scratch/two") || return 1
    file=$(cd "$scratch/one" && echo plot-hub-*.tar.gz)
    [ "$file" = "plot-hub-$(cat VERSION)-x86_64.tar.gz" ] || { echo "it is called $file" && return 1; }
    cmp "$scratch/one/$file" "$scratch/two/$file" && (cd "$scratch/one" && sha256sum --strict -c "$file.sha256") || return 1
    unpacked=$scratch/"another place"/${file%-x86_64.tar.gz}
    mkdir "$scratch/another place" && tar -C "$scratch/another place" -xzf "$scratch/one/$file" && [ -d "$unpacked" ] || return 1
    (cd "$unpacked" && sha256sum --strict --quiet -c SHA256SUMS) && release_is_whole && release_refuses && release_prints &&
        release_is_called
}

make_release() { # FOLDER
    PLOT_HUB_ARCHIVE=$archive PLOT_HUB_PROGRAM=$program SHOW_BOOK_PROGRAM=$show_book PLOT_HUB_HINTS_PROGRAM=$hints tools/release --to "$1"
}

# Every file is there and in the sums, and none tells where it was made.
release_is_whole() {
    local sitting
    (cd "$unpacked" && find . -type f ! -name SHA256SUMS | sed 's|^\./||' | sort) >"$scratch/files"
    awk '{ print $2 }' "$unpacked/SHA256SUMS" | sort | cmp - "$scratch/files" || return 1
    {
        printf '%s\n' KIT VERSION bin/plot_hub bin/show_book include/plot_hub.h lib/libplot_hub.a lib/pkgconfig/plot_hub.pc
        printf 'libexec/plot_hub/%s\n' start plot_hub plot_hub_hints show_book
        printf 'share/doc/plot_hub/%s\n' HANDBOOK.md LAYOUT.md CHANGELOG.md README
        printf 'share/plot_hub/%s\n' three.book
        for sitting in examples/sittings/*; do echo "share/plot_hub/sittings/${sitting##*/}"; done
    } | sort | diff - "$scratch/files" || return 1
    cmp "$archive" "$unpacked/lib/libplot_hub.a" && cmp "$program" "$unpacked/libexec/plot_hub/plot_hub" || return 1
    ! grep -rF -e "$PWD" -e "$scratch" -e /tmp/ -e /home/ -e /root/ "$unpacked" ||
        { echo "these name a place of this machine" && return 1; }
}

# Another kit, another version in the header, a key that is not the program's: no release.
release_refuses() {
    local copy=$scratch/copy
    mkdir "$copy" "$copy/kit" && cp -r bin tools include examples docs VERSION KIT CHANGELOG.md "$copy/" || return 1
    printf '#!/bin/sh\necho another-kit logic 0\n' >"$copy/kit/rt" && chmod +x "$copy/kit/rt"
    (cd "$copy" && PATH=$copy/kit:$PATH && refused_release "KIT says $(cat KIT), but here is another-kit logic 0") || return 1
    echo 9.9.9 >"$copy/VERSION"
    (cd "$copy" && refused_release 'include/plot_hub.h has another version than VERSION: 9.9.9') || return 1
    cp VERSION "$copy/" && echo unread >>"$copy/examples/sittings/listing.key"
    (cd "$copy" && refused_release 'examples/sittings/listing.key is not what the program prints') || return 1
    cp examples/sittings/listing.key "$copy/examples/sittings/" && echo 'rattle-kit logic 0000' >"$copy/KIT"
    printf '#!/bin/sh\ncat KIT\n' >"$copy/kit/rt"
    (cd "$copy" && PATH=$copy/kit:$PATH && refused_release "$archive was not proved with the kit that KIT names: logic 0000")
}

refused_release() { # MESSAGE: in the folder that it is run in
    ! make_release "$scratch/none" >"$scratch/said" 2>&1 && [ ! -e "$scratch/none" ] &&
        [ "$(tail -n 1 "$scratch/said")" = "release: $1" ] && return 0
    echo "expected: release: $1; it said:" && cat "$scratch/said"
    return 1
}

# The commands of the release, where there is no kit and no tool but those that they use.
release_prints() {
    local plain=(env -i "PATH=$scratch/tools") tool sitting sittings=share/plot_hub/sittings
    mkdir "$scratch/tools" || return 1
    for tool in cat mktemp readlink rm tr; do
        ln -s "$(command -v $tool)" "$scratch/tools/" || return 1
    done
    (
        cd "$unpacked" || exit 1
        for sitting in "$sittings"/*.txt; do
            "${plain[@]}" bin/plot_hub "$sitting" 2>&1 | cmp - "${sitting%.txt}.key" || exit 1
            "${plain[@]}" bin/plot_hub --hints <"$sitting" 2>"$scratch/said" | cmp - "${sitting%.txt}.key" || exit 1
            python3 "$OLDPWD/tests/hints.py" "$sitting" "${sitting%.txt}.key" | cmp - "$scratch/said" || exit 1
        done
        "${plain[@]}" bin/show_book --hints share/plot_hub/three.book >"$scratch/book" 2>&1 || exit 1
        [ "$("${plain[@]}" bin/plot_hub --version)" = "plot_hub $(cat VERSION)"$'\n'"proved with $(cat KIT)" ] || exit 1
        "${plain[@]}" bin/plot_hub --help | grep -qxF "Handbook: $PWD/share/doc/plot_hub/HANDBOOK.md"
    ) && python3 tests/book/show.py <examples/three.book | cmp - "$scratch/book"
}

# A short caller in C and in C++, built as the release's README says. Of a folder with a space in its name pkg-config prints words for a
# shell to read, so there it takes `eval`.
release_is_called() {
    local elsewhere=$scratch/elsewhere place language
    command -v pkg-config >/dev/null || { echo "there is no pkg-config; on Debian: apt-get install pkgconf" && return 77; }
    cat >"$scratch/caller.c" <<'end'
#include <plot_hub.h>
#include <stdio.h>
static uint8_t input[100000], output[100000];
int main(void) {
    int64_t length = plot_hub_run(input, fread(input, 1, sizeof input, stdin), output, sizeof output);
    return length < 0 || fwrite(output, 1, (size_t)length, stdout) != (size_t)length;
}
end
    cp "$scratch/caller.c" "$scratch/caller.cc" && cp -r "$unpacked" "$elsewhere" || return 1
    for place in "$elsewhere" "$unpacked"; do
        export PKG_CONFIG_PATH=$place/lib/pkgconfig
        [ "$(pkg-config --modversion plot_hub)" = "$(cat VERSION)" ] || return 1
        for language in c cc; do
            eval "gcc -Wall -Wextra -Werror '$scratch/caller.$language' $(pkg-config --cflags --libs plot_hub)" -o '"$scratch/caller"' &&
                "$scratch/caller" <examples/sittings/listing.txt | cmp - examples/sittings/listing.key && rm "$scratch/caller" || return 1
        done
    done
    PKG_CONFIG_PATH=$elsewhere/lib/pkgconfig
    # shellcheck disable=SC2046 # words, not one
    gcc "$scratch/caller.c" $(pkg-config --cflags --libs plot_hub) -o "$scratch/caller" && "$scratch/caller" </dev/null
}

# ---- the hub's calls from Rattle

# Due settings, one by one and all into a list (document 02, item 14), against the reference and against the model.
readings() {
    local from
    for from in "$seed" "$((seed + 1))" "$((seed + 2))" "$((seed + 3))"; do
        "$bin/make_readings" "$from" 150 "$scratch/stdin" "$scratch/stdout" &&
            "$hub_vectors" <"$scratch/stdin" | cmp - "$scratch/stdout" || return 1
    done
    python3 tests/hub/compare.py 500 "$seed" "$hub_vectors"
}

# ---- the handbook

# Every sitting, order, book and table of docs/HANDBOOK.md, and examples/sittings, run through the programs.
handbook() {
    python3 tests/handbook.py "$program" "$show_book" "$hints"
}
