#!/usr/bin/env bash
# Rights take time in proportion to records times rules, whatever the rules' paths: on a tree whose leaves all stand on level 11, 128 rules
# `//a//*//*//*//*` cost at most 1.5 times 128 rules `/a/*/*/*/*`.
. "$(dirname "${BASH_SOURCE[0]}")/common.sh"
children=$(count trial_rights rights '/a/*/*/*/*')
descendants=$(count trial_rights rights '//a//*//*//*//*')
at_most 'rights: 128 rules //a//*//*//*//* against /a/*/*/*/*' "$descendants" 15 "$children"
exit "$failed"
