#!/usr/bin/env bash
# library.sh [ARCHIVE]: the library for others. The header in C and C++, tests/library.c, the stack, the texts of the
# refusals; the wrapper in Rust; what make builds, installs and packs, and the examples linked with the installed tree.
# Without an archive it has tests/build.py make target/staticlib/liblouvretansy.a. Warnings are errors. Needs gcc, g++, make, git,
# pkg-config, cargo with rustfmt (and clippy, if it is there), and rt for the archive. Ends with `N passed, M failed`.
set -u
root=$(cd "$(dirname "${BASH_SOURCE[0]}")/.." && pwd)
work=$(mktemp -d)
trap 'rm -rf "$work"' EXIT
source "$root/tests/count.sh"

header=$root/include/timetable.h
wrapper=$root/bindings/rust
export RUSTFLAGS='-D warnings' RUSTDOCFLAGS='-D warnings'
strict=(-Wall -Wextra -Wpedantic -Wconversion -Wsign-conversion -Wshadow -Wundef -Werror -O2)

# defined NAME: what the header defines it as
defined() {
    sed -n "s/^#define $1 \"\{0,1\}\([^\"]*\)\"\{0,1\}\$/\1/p" "$header"
}

# prints_view COMMAND..: whether it prints what SHA sees of the school of document 01
prints_view() {
    "$@" > "$work/printed" && diff "$work/view" "$work/printed"
}

# turns_away SAID COMMAND..: whether it says something that begins so, prints nothing and ends with status 1
turns_away() {
    local said=$1 status
    shift
    "$@" > "$work/printed" 2> "$work/said"
    status=$?
    [ "$status" -eq 1 ] && [ ! -s "$work/printed" ] && [[ $(< "$work/said") == "$said"* ]] && return
    echo "status $status, not '$said': $(head -n 3 "$work/said")"
    return 1
}

# to_full_disk COMMAND..
to_full_disk() {
    "$@" > /dev/full
}

# shows_week COMMAND..: whether it shows SHA every element and text of a secondary school's week
shows_week() {
    local nodes
    python3 "$root/tests/week.py" > "$work/school.xml" || return 1
    nodes=$(sed 's/<[^>]*>/\n&\n/g' "$work/school.xml" | grep -cE '^<[^/]|^ *[^ <]')
    "$@" "$root/examples/policy.lines" "$work/school.xml" SHA > "$work/printed" &&
        [ "$(tail -n 1 "$work/printed")" = "(end $nodes)" ] && [ "$nodes" -gt 5000 ]
}

# loads COMMAND..: whether it prints what SHA sees of examples/week.xml, and tells what is refused by file, line and
# words
loads() {
    local policy=$root/examples/policy.lines week=$root/examples/week.xml file
    printf '%s' "$(< "$week")" > "$work/unended.xml"
    sed 's|</tue>|</mon>|' "$week" > "$work/damaged.xml"
    sed 's/^(isa SHA staff)$/(isa SHA music)/' "$policy" > "$work/unknown.lines"
    printf '%s\n(root school)' "$(< "$policy")" > "$work/rooted.lines"
    for file in "$week" "$work/unended.xml"; do
        "$@" "$policy" "$file" SHA > "$work/printed" && diff "$work/week" "$work/printed" || return 1
    done
    shows_week "$@" &&
        turns_away "$work/damaged.xml: refused 14: the document is not" "$@" "$policy" "$work/damaged.xml" SHA &&
        turns_away "$work/unknown.lines:3: refused 5: a name is unknown" "$@" "$work/unknown.lines" "$week" SHA &&
        turns_away "$week: refused 3: it does not fit the stage" "$@" "$work/rooted.lines" "$week" SHA &&
        turns_away '(user MEI): refused 5: a name is unknown' "$@" "$policy" "$week" MEI &&
        turns_away "$work/none.xml: No such file" "$@" "$policy" "$work/none.xml" SHA &&
        turns_away 'standard output: No space left' to_full_disk "$@" "$policy" "$week" SHA
}

# The header and the archive, in C and C++

narrow_header() {
    ! grep -nE '.{121}' "$header"
}

# It holds nothing between calls, and needs memcpy and memset alone.
archive_alone() {
    [ "$(nm -u "$archive" | awk 'NF == 2 { print $2 }' | xargs)" = 'memcpy memset' ] &&
        size -A "$archive" | awk '$1 ~ /^\.(t?data|t?bss)($|\.[^r])/ { bytes += $2 } END { exit bytes > 0 }'
}

# in_c EXAMPLE, in_cpp EXAMPLE: builds it as $work/EXAMPLE_c, $work/EXAMPLE_cpp
in_c() {
    gcc -std=c99 "${strict[@]}" -I "$root/include" -o "$work/$1_c" "$root/examples/$1.c" "$archive"
}

in_cpp() {
    g++ -std=c++11 "${strict[@]}" -I "$root/include" -o "$work/$1_cpp" -x c++ "$root/examples/$1.c" -x none "$archive"
}

view_in_c() {
    in_c view && prints_view "$work/view_c"
}

view_in_cpp() {
    in_cpp view && prints_view "$work/view_cpp"
}

load_in_c() {
    in_c load && loads "$work/load_c"
}

load_in_cpp() {
    in_cpp load && loads "$work/load_cpp"
}

# A library whose state is of another size: the example says so, and asks it nothing.
view_of_another_version() {
    cat > "$work/another.c" << 'END'
#include "timetable.h"
#include <stdlib.h>
size_t timetable_state_bytes(void) { return TIMETABLE_STATE_BYTES + 8; }
int64_t timetable_line(uint8_t *a, size_t b, uint8_t *c, size_t d, const uint8_t *e, size_t f, uint8_t *g, size_t h) {
    (void)a, (void)b, (void)c, (void)d, (void)e, (void)f, (void)g, (void)h;
    abort();
}
END
    gcc -I "$root/include" -o "$work/view_another" "$root/examples/view.c" "$work/another.c" || return 1
    "$work/view_another" 2> "$work/said"
    [ $? -eq 1 ] && grep -q 'the library is not one for timetable.h' "$work/said"
}

# The stack that the header asks for is all that there is.
calls_in_c() {
    gcc -std=c99 "${strict[@]}" -I "$root/include" -o "$work/library" "$root/tests/library.c" "$archive" &&
        (ulimit -s $(($(defined TIMETABLE_STACK_BYTES) / 1024)) && env -i "$work/library" > "$work/calls") &&
        cat "$work/calls"
}

# The header tells the figures of tests/library.c, up to a tenth.
stack_as_told() {
    local measured told i
    mapfile -t measured < <(grep -oE '[0-9]+ KiB' "$work/calls" | tr -dc '0-9\n')
    mapfile -t told < <(grep -oE '[0-9,]+ KiB' "$header" | tr -dc '0-9\n')
    [ "${#measured[@]}" -eq 2 ] && [ "${#told[@]}" -eq 2 ] || return 1
    for i in 0 1; do
        if [ $((told[i] * 10)) -lt $((measured[i] * 9)) ] || [ $((told[i] * 10)) -gt $((measured[i] * 11)) ]; then
            echo "the header tells ${told[i]} KiB, measured are ${measured[i]} KiB"
            return 1
        fi
    done
}

texts_as_told() {
    sed -E ':join; N; $!b join; s/\n  / /g' "$root/README.md" |
        sed -nE 's/^- \*\*([0-9]+)\*\* (.*); for example `.*$/\1 \2/p' | sed 's/ (library alone)$//' > "$work/told"
    "$work/library" refusals > "$work/texts" && diff "$work/told" "$work/texts"
}

# The wrapper in Rust

# rust COMMAND WORDS..: cargo on the wrapper, which takes nothing from a registry
rust() {
    local command=$1
    shift
    LOUVRETANSY_ARCHIVE=$archive CARGO_TARGET_DIR=$root/target/bindings \
        cargo "$command" --quiet --offline --manifest-path "$wrapper/Cargo.toml" "$@"
}

# rust_alone COMMAND WORDS..: the same on a copy outside the repository, where no archive is named or built
rust_alone() {
    local command=$1
    shift
    env -u LOUVRETANSY_ARCHIVE CARGO_TARGET_DIR="$work/alone/made" \
        cargo "$command" --offline --manifest-path "$work/alone/bindings/rust/Cargo.toml" "$@" 2> "$work/said"
}

# uninstalled COMMAND..: where pkg-config finds nothing
uninstalled() {
    PKG_CONFIG_LIBDIR=$work/nowhere PKG_CONFIG_PATH='' "$@"
}

# It is checked and documented; what must be linked says what is missing.
wrapper_alone() {
    mkdir -p "$work/alone/bindings/rust" || return 1
    (cd "$wrapper" && cp -r Cargo.* build.rs src examples tests "$work/alone/bindings/rust") || return 1
    if ! uninstalled rust_alone check --all-targets || ! uninstalled rust_alone doc --no-deps; then
        cat "$work/said"
        return 1
    fi
    [ -f "$work/alone/made/doc/louvretansy/enum.Refusal.html" ] && ! uninstalled rust_alone build &&
        grep -q 'there is no liblouvretansy.a to link with' "$work/said"
}

wrapper_tidy() {
    rust doc --no-deps && cargo fmt --check --manifest-path "$wrapper/Cargo.toml" || return 1
    if cargo clippy --version > /dev/null 2>&1; then rust clippy --all-targets -- -D warnings; fi
}

# The installed tree: below $tree, by the prefix /opt/school

prefix=/opt/school
tree=$work/tree

# made FOLDER TARGET WORDS..: make, with the archive at hand
made() {
    local folder=$1
    shift
    make --silent -C "$folder" ARCHIVE="$archive" BUILD="$work/build" DIST="$work/dist" DESTDIR="$tree" PREFIX=$prefix \
        "$@"
}

# in_tree COMMAND..: where pkg-config and the loader look into the installed tree alone
in_tree() {
    PKG_CONFIG_LIBDIR=$tree$prefix/lib/pkgconfig PKG_CONFIG_PATH='' PKG_CONFIG_SYSROOT_DIR=$tree \
        LD_LIBRARY_PATH=$tree$prefix/lib "$@"
}

# installed_is FILE..: these files, below the prefix, and no others
installed_is() {
    diff <(printf "$prefix/%s\n" "$@" | sort) <(cd "$tree" && find . ! -type d | sed 's/^\.//' | sort)
}

# The library's files by their names; then whether only its two functions are seen from outside
install_tree() {
    local version soname so
    version=$(defined TIMETABLE_VERSION)
    soname=liblouvretansy.so.${version%.*}
    so=$tree$prefix/lib/liblouvretansy.so
    local files=(include/timetable.h lib/liblouvretansy.a lib/liblouvretansy.so "lib/$soname"
        "lib/liblouvretansy.so.$version" lib/pkgconfig/louvretansy.pc share/doc/louvretansy/FORMAT.md
        share/man/man1/timetable.1 bin/timetable-office share/man/man1/timetable-office.1
        share/bash-completion/completions/timetable-office share/zsh/site-functions/_timetable-office
        share/fish/vendor_completions.d/timetable-office.fish share/timetable-office/timetable_office/liblouvretansy.so)
    mapfile -t -O "${#files[@]}" files < <(cd "$root/office" &&
        printf 'share/timetable-office/%s\n' timetable_office/*.{py,css,js} timetable_office/py.typed)
    [ ! -f "$root/LICENSE" ] || files+=(share/doc/louvretansy/LICENSE)
    made "$root" PROGRAM="$work/none" install > /dev/null && installed_is "${files[@]}" &&
        made "$root" PROGRAM="$work/view_c" install && installed_is bin/timetable "${files[@]}" &&
        readelf -d "$so" | grep -qF "Library soname: [$soname]" &&
        [ "$(nm -D --defined-only "$so" | cut -d ' ' -f 3 | xargs)" = 'timetable_line timetable_load_xml timetable_state_bytes' ] &&
        [ "$(in_tree pkg-config --modversion louvretansy)" = "$version" ]
}

# examples/view.c, as somebody else would build it
view_shared() {
    # shellcheck disable=SC2046
    gcc -o "$work/view_shared" "$root/examples/view.c" $(in_tree pkg-config --cflags --libs louvretansy) &&
        in_tree prints_view "$work/view_shared" &&
        readelf -d "$work/view_shared" | grep -q 'NEEDED.*\[liblouvretansy\.so\.[0-9]*\.[0-9]*\]'
}

view_static() {
    # shellcheck disable=SC2046
    gcc -static -o "$work/view_static" "$root/examples/view.c" \
        $(in_tree pkg-config --static --cflags --libs louvretansy) &&
        prints_view "$work/view_static" && ! readelf -d "$work/view_static" | grep -q NEEDED
}

view_in_rust_installed() {
    in_tree prints_view rust_alone run --example view || { cat "$work/said" && false; }
}

uninstall_tree() {
    made "$root" uninstall && [ -z "$(find "$tree" ! -type d)" ] && [ ! -e "$tree$prefix/share/doc/louvretansy" ] &&
        [ ! -e "$tree$prefix/share/timetable-office" ] && made "$root" uninstall
}

# The same commit gives the same bytes; what is packed can be installed; changes that no commit has are told.
packed() {
    local release
    release=louvretansy-$(defined TIMETABLE_VERSION)
    mkdir -p "$work/repository/docs" "$work/unpacked" || return 1
    (cd "$root" && cp -r Makefile crates.txt include office packaging "$work/repository" &&
        cp docs/timetable.1 docs/FORMAT.md "$work/repository/docs") || return 1
    local git=(git -C "$work/repository" -c user.name=tests -c user.email=tests@localhost -c init.defaultBranch=main
        -c commit.gpgsign=false)
    "${git[@]}" init --quiet && "${git[@]}" add -A && "${git[@]}" commit --quiet -m 'tests' &&
        made "$work/repository" dist && (cd "$work/dist" && sha256sum --quiet -c "$release.tar.gz.sha256") &&
        cp "$work/dist/$release.tar.gz.sha256" "$work/first" && made "$work/repository" dist &&
        cmp "$work/first" "$work/dist/$release.tar.gz.sha256" &&
        tar -xzf "$work/dist/$release.tar.gz" -C "$work/unpacked" &&
        made "$work/unpacked/$release" PROGRAM="$work/none" install > /dev/null && view_shared &&
        echo >> "$work/repository/Makefile" && ! made "$work/repository" dist > "$work/said" 2>&1 &&
        grep -q 'commit them first' "$work/said"
}

cat > "$work/view" << 'END'
(root school)
(child (mon (lesson (class (10B)) (room (R12)) (note (RESTRICTED)))))
(end 9)
END

cat > "$work/week" << 'END'
(root school)
(child (mon (p1 (lesson (class (10B)) (room (R12)) (teacher (SHA)) (note (RESTRICTED)))) (p2)))
(child (tue (p1) (p2 (lesson (class (10C)) (room (hall)) (teacher (MEI)) (note)))))
(end 24)
END

archive=$root/target/staticlib/liblouvretansy.a
if [ $# -gt 0 ]; then
    archive=$(realpath "$1")
elif ! python3 "$root/tests/build.py" library > "$work/log" 2>&1; then
    tail -n 20 "$work/log"
    echo "0 passed, 1 failed"
    exit 1
fi
run 'the header is 120 columns wide' narrow_header
run 'the archive holds nothing between calls' archive_alone
run 'a view in C' view_in_c
run 'a view in C++' view_in_cpp
run "the solver's file in C" load_in_c
run "the solver's file in C++" load_in_cpp
run 'a library of another version' view_of_another_version
run 'calls, short areas and damaged stores in C, on the stack that the header asks for' calls_in_c
run 'the stack is what the header tells' stack_as_told
run 'the texts of the refusals are those of README.md' texts_as_told
run 'a view in Rust' prints_view rust run --example view
run "the solver's file in Rust" loads rust run --example load --
run 'the wrapper in Rust' rust test
run 'the wrapper is tidy' wrapper_tidy
run 'the wrapper without the archive' wrapper_alone
run 'make install' install_tree
run 'a view with the installed shared library' view_shared
run 'a view with the installed static library' view_static
run 'a view in Rust with the installed library' view_in_rust_installed
run 'make uninstall' uninstall_tree
run 'make dist' packed
counted
