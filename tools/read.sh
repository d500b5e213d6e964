#!/usr/bin/env bash
# Writes a reader's view of a file as XML: tools/read.sh KEYS STORE LICENCE [--namespaces FILE] [--query P]
#
# `acl` checks the file STORE and the licence in the file LICENCE. examples/to_xml.py makes XML of the view, with the
# name `hidden` for each element that is kept only for what is inside it. Nothing is written before the whole view is
# made.
#
# Where the document has namespaces, FILE is the file of namespaces that tools/publish.sh made beside STORE. The XML
# declares those that the view uses. FILE isn't sealed, so a FILE from a store can be trusted no more than the store:
# docs/TOOLS.md says what it could do.
#
# It needs `acl` on the path, or its path in ACL, and `python3`.
#
# Of a refusal by `acl` only the number and the name are printed, which docs/FORMATS.md lists, and the number is the
# status. The rest of what `acl` says is not for readers: for a wrong seal it prints the right one. A path P that is
# refused is shown with a mark under the place and the reason, since it is the reader's own.
#
# Status 0: the view is on standard output. 1: the view is empty, or FILE is of another document; nothing is written. 2:
# the arguments are not as above, or LICENCE or FILE can't be read. 69: a tool is missing. Any other status is that of
# `acl`.
. "$(dirname -- "$(readlink -f -- "$0")")/parts.sh" || exit 2
top=$(dirname -- "$(dirname -- "$(readlink -f -- "$0")")")

usage() {
    fail "$usage_status" "usage: tools/read.sh KEYS STORE LICENCE [--namespaces FILE] [--query P]"
}

[ "$#" -ge 3 ] || usage
words=()
namespaces=()
for ((at = 4; at <= $#; at++)); do
    if [ "${!at}" = --namespaces ]; then
        at=$((at + 1))
        [ "$at" -le "$#" ] || usage
        namespaces=(--namespaces "$(plain_name "${!at}")")
    else
        words+=("${!at}")
    fi
done
need python3 "it is in Debian's package python3"
need_acl
warn_of_keys "$1"
for file in "$3" "${namespaces[@]:1}"; do
    [ -r "$file" ] && [ ! -d "$file" ] || fail "$usage_status" "$file is no file that can be read"
done
made=$(mktemp -d) || exit 2
trap 'rm -rf -- "$made"' EXIT
trap 'exit 130' INT
trap 'exit 143' TERM
trap 'exit 129' HUP

"$acl" view "$1" "$2" "${words[@]}" <"$3" >"$made/view" 2>"$made/said"
status=$?
readonly bad_query_status=26
if [ "$status" -eq "$bad_query_status" ]; then
    # The last argument is P, or `--query=` and P.
    "$top/tools/why.py" --query="${words[-1]#--query=}" >&2
fi
if [ "$status" -ne 0 ]; then
    name=$(head -n 1 "$made/said" | sed -n 's/^acl: [0-9]* \([A-Za-z]*\).*/ \1/p')
    fail "$status" "refused: $status$name"
fi
[ -s "$made/view" ] || fail 1 "the view is empty"
"$top/examples/to_xml.py" "${namespaces[@]}" <"$made/view"
