#!/usr/bin/env bash
# random.sh [ARCHIVE]: the random testers. Without an archive they test the straightforward Rust version (docs/src) and themselves; with liblouvretansy.a they test
# the functions in it. The seed is fixed. Ends with `N passed, M failed`. Needs cargo, and gcc for an archive.
set -u
source=$(cd "$(dirname "${BASH_SOURCE[0]}")/../docs/src" && pwd)
work=$(mktemp -d)
seed=20261115
trap 'rm -rf "$work"' EXIT
source "$(dirname "${BASH_SOURCE[0]}")/count.sh"

# fails COMMAND..: the command must fail with 1, what it finds
fails() {
    "$@" > "$work/log"
    local status=$?
    sed -n 's/^FAILED/found/p' "$work/log"
    [ "$status" -eq 1 ]
}

cargo build --quiet --release --offline --manifest-path "$source/Cargo.toml" --bins --example shared || { echo "0 passed, 1 failed"; exit 1; }
bin=$source/target/release
if [ $# -gt 0 ]; then
    library=$work/liblouvretansy.so
    gcc -shared -o "$library" -Wl,--whole-archive "$1" -Wl,--no-whole-archive || { echo "0 passed, 1 failed"; exit 1; }
    run 'demand 3 on the library' "$bin/demand3" --seed "$seed" --lines 100000 --library "$library"
    run 'the library and the straightforward version' "$bin/compare" --seed "$seed" --lines 20000 --library "$library"
else
    run 'the straightforward version by its own tests' cargo test --quiet --release --offline --manifest-path "$source/Cargo.toml"
    run 'demand 3 on the straightforward version' "$bin/demand3"
    run 'each false reading is found by the demand-3 tester' "$bin/demand3" --self-test
    run 'the straightforward version and itself as a library' "$bin/compare" --library "$bin/examples/libshared.so"
    for wrong in rename-into-word rename-of-word no-own-names update-hidden stored-labels count-freed spare-hidden readers-words place-by-place \
        stored-hits last-hit none-for-one-hit room-for-all-hits names-of-roles login-in-commands login-in-rules direct-roles rules-name names-between \
        every-name name-by-name exact-steps exact-own exact-words exact-names exact-ban exact-ban-in-13 exact-names-in-13 exact-rooms isa-by-text \
        a-not-folded z-not-folded low-bits shown-folded stored-folded case-not-renamed forms-in-any-case \
        stored-sheet stored-days stored-periods stored-lessons true-labels true-rooms second-room room-with-lesson \
        sixth-for-fifth six-days labels-uncut no-blank-cells no-rows-for-hidden-root no-restricted-room \
        in-window-below last-day-excluded windows-take-read day-in-view-alone windows-below window-without-read window-without-update \
        words-not-redated root-redated rename-resets-window inserted-takes-window days-where-selected day-logs-in day-needs-user login-resets-day \
        zeros-in-13 any-root-in-13 any-day-in-13 \
        any-closing-tag closing-tag-in-any-case text-dropped text-not-trimmed texts-joined second-root labels-before-document root-not-counted root-alone-at-d; do
        run "$wrong is found by the comparer" fails "$bin/compare" --wrong "$wrong"
    done
    run 'the view alone and the straightforward version' "$bin/views"
    for wrong in first-rule-wins login-in-rules direct-roles rules-name names-between every-name name-by-name \
        exact-steps exact-own exact-ban-in-13 exact-names-in-13 a-not-folded low-bits shown-folded \
        in-window-below last-day-excluded windows-take-read zeros-in-13 any-root-in-13 any-day-in-13; do
        run "$wrong is found by the tester of views" fails "$bin/views" --wrong "$wrong"
    done
fi
counted
