# For the benches: builds the C driver over crate `trials`, and counts instructions with callgrind. Sourced.
set -eu
root=$(cd "$(dirname "${BASH_SOURCE[0]}")/.." && pwd)
for tool in rt gcc valgrind python3; do
    command -v "$tool" > /dev/null || { echo "FAILED: $tool is missing"; exit 1; }
done
work=$(mktemp -d)
trap 'rm -rf "$work"' EXIT
python3 "$root/tests/build.py" trials
gcc -O2 -o "$work/driver" "$root/bench/driver.c" "$root/target/staticlib/libtrials.a"

# callgrind counts `rep stosb` and `rep movsb` once a byte: with this the C library sets and copies by vector instructions while it counts
no_rep=glibc.cpu.x86_rep_stosb_threshold=1000000000:glibc.cpu.x86_rep_movsb_threshold=1000000000

# count FUNCTION ARGS..: the instructions that the function takes, with all that it calls
count() {
    local function=$1
    shift
    GLIBC_TUNABLES=$no_rep valgrind --tool=callgrind --toggle-collect="$function" --callgrind-out-file="$work/out" "$work/driver" "$@" > "$work/answer" 2> "$work/log" \
        || { cat "$work/answer" "$work/log" >&2; echo "FAILED: the driver on $*" >&2; exit 1; }
    sed -n 's/.*Collected : \([0-9]*\).*/\1/p' "$work/log"
}

# at_most WHAT COUNT FACTOR BASE: whether COUNT is at most FACTOR (in tenths) times BASE
failed=0
at_most() {
    local ratio
    ratio=$(($2 * 100 / $4))
    printf '%s: %s against %s instructions, %s.%02d times, at most %s.%s\n' "$1" "$2" "$4" $((ratio / 100)) $((ratio % 100)) $(($3 / 10)) $(($3 % 10))
    if [ $(($2 * 10)) -gt $(($3 * $4)) ]; then
        echo "FAILED: $1"
        failed=1
    fi
}
