#!/usr/bin/env bash
# Publishes each XML document of a folder with tools/publish.sh, as many at a time as there are processors:
#
#   examples/many.sh [OPTION..] KEYS FOLDER OUT READER.rules.. [-- OPTION..]    the last options are those of GNU parallel
#   examples/many.sh --make N FOLDER                                            makes N documents to try it on
#
# For FOLDER/NAME.xml it makes in the folder OUT/NAME: NAME.acl; a copy of each reader's body with the root of that
# file; each reader's licence; NAME.said with the output of publish.sh; and NAME.namespaces where the document declares
# some. For a document that is refused it makes only OUT/NAME.refused with the reason, and lists the document at the
# end. The options before KEYS are those of tools/publish.sh: --allow-idle, --with-files and --no-namespaces.
#
# OUT/jobs is the log of parallel. A run that was stopped continues when it is started again with the same arguments;
# `-- --resume-failed` also tries refused documents again. Other machines can help if they have the same folders and
# programs by a network file system: `-- --sshlogin 16/one,16/two`.
#
# All documents are enciphered under one document key. So whoever has the store sees where two of them have the same 16
# bytes at the same byte offset. If that must not be seen, call tools/publish.sh with new keys for each document.
#
# Readers share nothing but files, so anything that starts processes can run them:
#
#   find OUT -name '*.acl' | parallel 'tools/read.sh KEYS {} {//}/READER.licence >{.}.xml'
#   find OUT -name '*.acl' -print0 | xargs -0 -P 8 -I{} sh -c 'tools/read.sh KEYS "$1" "${1%/*}/READER.licence" >"$1.xml"' - {}
#   systemd-run --user --wait --pipe -p MemoryMax=2G tools/read.sh KEYS OUT/NAME/NAME.acl OUT/NAME/READER.licence >NAME.xml
#
# It needs `acl` on the path, or its path in ACL, and Debian's parallel, libxml2-utils (xmllint) and opensp (onsgmls).
#
# Status 0: all documents are published. 1: some were refused, or are left because the run was stopped. 2: the arguments
# are not as above, a file can't be read or made, another run is writing to OUT, or FOLDER has other documents than when
# OUT was begun. 69: a tool is missing.
self=$(readlink -f -- "$0")
top=$(dirname -- "$(dirname -- "$self")")
. "$top/tools/parts.sh" || exit 2

usage() {
    fail "$usage_status" "usage: examples/many.sh [--allow-idle] [--with-files] [--no-namespaces] KEYS FOLDER OUT READER.rules.. [-- OPTION..]
                examples/many.sh --make N FOLDER"
}

# Makes $1 documents in the folder $2, each with its own names of patients.
make_documents() {
    [[ $1 =~ ^[1-9][0-9]{0,5}$ ]] || usage
    need python3 "it is in Debian's package python3"
    need_acl
    mkdir -p -- "$2" || exit "$usage_status"
    local base
    base=$("$acl" sample 20 2>/dev/null | "$top/examples/to_xml.py") || fail "$usage_status" "no sample was made"
    for number in $(seq -w 1 "$1"); do
        sed "s/>Patient/>Patient$number./g" <<<"$base" >"$2/hospital $number.xml" || exit "$usage_status"
    done
}

# One job: publishes the document $3 to the folder $2/NAME. $1 are the keys. The options of publish.sh and the bodies
# follow.
publish_one() {
    local keys=$1 out=$2 document=$3 name said status
    name=$(basename -- "$document" .xml)
    made=$(mktemp -d -- "$out/.publish.XXXXXXXX") || exit "$usage_status"
    trap 'rm -rf -- "$made"' EXIT
    trap 'exit 130' INT
    trap 'exit 143' TERM
    trap 'exit 129' HUP
    mkdir "$made/files" || exit "$usage_status"
    local options=() bodies=()
    for word in "${@:4}"; do
        case $word in
            --*) options+=("$word") ;;
            *)
                cp -- "$word" "$made/files/" || exit "$usage_status"
                bodies+=("$made/files/${word##*/}")
                ;;
        esac
    done
    said=$("$top/tools/publish.sh" "${options[@]}" -o "$made/files" -- "$keys" "$document" "${bodies[@]}" 2>&1)
    status=$?
    said=${said//"$made/files/"/}
    if [ "$status" -ne 0 ]; then
        echo "$said" >"$made/refused" && mv -f -T -- "$made/refused" "$out/$name.refused"
        exit "$status"
    fi
    echo "$said" >"$made/files/$name.said" || exit "$usage_status"
    mkdir -p -- "$out/$name" && mv -f -- "$made/files/"* "$out/$name/" || exit "$usage_status"
    rm -f -- "$out/$name.refused"
}

# Prints for each job in parallel's log its number, and the status of its last try or the signal that ended it.
last_status() {
    awk -F '\t' 'NR > 1 { last[$1] = $7 != 0 ? $7 : $8 } END { for (at in last) print at, last[at] }' "$1" | sort -n
}

# Lists the refused documents with the reasons, and prints the counts. False if some documents aren't published.
list_refused() {
    local number status name made warned left refused=0
    while read -r number status; do
        refused=$((refused + 1))
        name=$(basename -- "${documents[number - 1]}" .xml)
        echo "refused, with status $status: ${documents[number - 1]}"
        [ ! -f "$out/$name.refused" ] || sed 's/^/    /' "$out/$name.refused"
    done < <(last_status "$out/jobs" | awk '$2 != 0')
    made=$(last_status "$out/jobs" | awk '$2 == 0' | wc -l)
    warned=$(grep -l 'publish.sh: warning:' "$out"/*/*.said 2>/dev/null | wc -l)
    [ "$warned" -eq 0 ] || echo "rules do nothing in $(count "$warned" document): grep warning: '$out'/*/*.said"
    left=$((${#documents[@]} - made - refused))
    echo "$(count "${#documents[@]}" document): $made published, $refused refused, $left left; $SECONDS seconds of this run"
    [ "$made" -eq "${#documents[@]}" ]
}

case ${1-} in
    --make)
        [ "$#" -eq 3 ] || usage
        make_documents "$2" "$3"
        exit
        ;;
    --one)
        publish_one "${@:2}"
        exit
        ;;
esac

options=()
while [[ ${1-} == --allow-idle || ${1-} == --with-files || ${1-} == --no-namespaces ]]; do
    options+=("$1")
    shift
done
words=()
while [ "$#" -gt 0 ] && [ "$1" != -- ]; do
    words+=("$1")
    shift
done
[ "$#" -eq 0 ] || shift
[ "${#words[@]}" -ge 4 ] || usage
for word in "${words[@]}"; do [[ $word != -* ]] || usage; done
need parallel "it is in Debian's package parallel"
need xmllint "it is in Debian's package libxml2-utils"
need onsgmls "it is in Debian's package opensp"
need_acl
mkdir -p -- "${words[2]}" || exit "$usage_status"
keys=$(readlink -f -- "${words[0]}")
folder=$(readlink -f -- "${words[1]}")
out=$(readlink -f -- "${words[2]}")
bodies=()
for body in "${words[@]:3}"; do bodies+=("$(readlink -f -- "$body")"); done
for file in "$keys" "${bodies[@]}"; do
    [ -f "$file" ] && [ -r "$file" ] || fail "$usage_status" "$file is no file that can be read"
done
shopt -s nullglob
documents=("$folder"/*.xml)
[ "${#documents[@]}" -gt 0 ] || fail "$usage_status" "$folder has no file whose name ends in .xml"

# One run at a time. So no run uses what an earlier one left unfinished, and it can be removed.
exec 9>"$out/.lock" || exit "$usage_status"
flock -n 9 || fail "$usage_status" "another run makes $out"
rm -rf -- "$out"/.publish.*

# `parallel` resumes by job number, so the numbers must stand for the same documents.
printf '%s\0' "${documents[@]}" >"$out/.documents.new" || exit "$usage_status"
if [ -e "$out/jobs" ] && ! cmp -s "$out/.documents" "$out/.documents.new"; then
    rm -f -- "$out/.documents.new"
    fail "$usage_status" "$folder is not as it was when $out was begun: take another folder for what is made"
fi
mv -f -T -- "$out/.documents.new" "$out/.documents" || exit "$usage_status"
# If it is stopped, its jobs have ten seconds to remove what they made.
parallel --joblog "$out/jobs" --resume --termseq TERM,10000,KILL,25 "$@" -q -0 -a "$out/.documents" \
    env "ACL=$acl" "$self" --one "$keys" "$out" {} "${options[@]}" "${bodies[@]}" &
queue=$!
trap 'kill -TERM "$queue" 2>/dev/null' INT TERM HUP
wait "$queue"
while kill -0 "$queue" 2>/dev/null; do wait "$queue"; done
[ -e "$out/jobs" ] || exit "$usage_status"
list_refused
