#!/usr/bin/env bash
# Selections take time in proportion to nodes times bytes of path: 16,384 nodes cost at most 20 times what 1,024 nodes cost. The deepest path runs
# over 16,384 nodes within 4 MB of stack.
. "$(dirname "${BASH_SOURCE[0]}")/common.sh"
few=1024
most=16384

# linear NAME PATH SHAPE
linear() {
    local small large
    small=$(count trial_select select "$2" "$few" "$3")
    large=$(count trial_select select "$2" "$most" "$3")
    at_most "selections: $1, $most nodes against $few" "$large" 200 "$small"
}

any=$(printf '//*%.0s' $(seq 16))
linear '16 steps //*' "$any" deep
linear 'nested brackets' '//*[*//*[*//*[*//zz]]]' deep
linear '//*[5000]' '//*[5000]' flat

# 16 steps in each of three nested brackets, at the last step of each: the deepest calls that a well-formed path can make
inner=$(printf '*//%.0s' $(seq 15))
deepest="$any[${inner}*[${inner}*[${inner}*]]]"
if (ulimit -s 4096 && "$work/driver" select "$deepest" "$most" deep) > "$work/answer"; then
    echo "selections: the deepest path over $most nodes within 4096 KB of stack: $(cat "$work/answer")"
else
    echo "FAILED: selections: the deepest path over $most nodes needs more than 4096 KB of stack"
    failed=1
fi
exit "$failed"
