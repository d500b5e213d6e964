#!/usr/bin/env bash
# Tries what the built program does with faulty arguments, files and streams: its status, its line on standard error, and
# what it wrote.
. "$(dirname "$0")/on_program.sh"

# What is tried, the outcome that is wanted, and a command line in which `acl` is the program. Nothing may be written.
try() {
    acl() { "$program" "$@"; }
    eval "$3" >"$made/out" 2>"$made/error"
    local status=$?
    [ "$status" = "${2%% *}" ] || { echo "acl, $1: status $status in place of $2"; wrong=1; }
    [ "$(head -n 1 "$made/error" | tr -d '\0')" = "acl: $2" ] || { echo "acl, $1: not the line of $2"; wrong=1; }
    [ ! -s "$made/out" ] || { echo "acl, $1: something on standard output"; wrong=1; }
}

# the same, for a run whose standard error can't be written: its status alone
try_number() {
    acl() { "$program" "$@"; }
    eval "$3"
    local status=$?
    [ "$status" = "$2" ] || { echo "acl, $1: status $status in place of $2"; wrong=1; }
}

try "an argument after the last" "2 Usage" "acl preview doctor.rules more <hospital.esis"
try "an argument after an option" "2 Usage" "acl view keys hospital.file --query /a more <doctor.licence"
try "an argument that is not UTF-8" "2 Usage" "acl preview $'doctor\\xff.rules' <hospital.esis"
try "a command that is not UTF-8" "2 Usage" "acl $'\\xff' <hospital.esis"
mkfifo "$made/pipe" || exit 2
# Who opens a pipe that nobody writes to waits for ever.
for words in "fly PIPE" "view PIPE" "encode PIPE more" "view keys PIPE more" "sample PIPE"; do
    try "$words" "2 Usage" "timeout 10 \"$program\" ${words/PIPE/\"$made/pipe\"} <nothing.out"
done
try "no rules" "3 KeysFault" "acl preview nowhere.rules <hospital.esis"
try "a folder as rules" "3 KeysFault" "acl preview . <hospital.esis"
try "no keys" "3 KeysFault" "acl view nowhere hospital.file <doctor.licence"
try "no store" "34 StoreFault" "acl view keys nowhere.file <doctor.licence"
try "a folder as a store" "34 StoreFault" "acl explain keys . <doctor.licence"
try "an empty store" "33 StoreShort at=0" "acl view keys nothing.out <doctor.licence"
try "an empty licence" "22 BadLicence line=1" "acl view keys hospital.file <nothing.out"
try "a closed input" "18 SourceFault" "acl preview doctor.rules <&-"
try "a closed input of a licence" "18 SourceFault" "acl view keys hospital.file <&-"
try "a folder as input" "18 SourceFault" "acl preview doctor.rules <."

# The mistakes that docs/FORMATS.md describes, in documents and in bodies.
lines() { printf '%b\n' "$@"; }
root="root 192458bf220db5d92fd62d4af0d3cecb63490b62c211eba93d9f548995a1a1d0"
try "XML" "10 BadLine line=1" "acl preview doctor.rules <ward.xml"
try "a byte order mark" "10 BadLine line=1" "lines '\\xef\\xbb\\xbf(a' ')a' | acl preview doctor.rules"
try "another name" "12 Unbalanced line=2" "lines '(a' ')b' | acl preview doctor.rules"
try "no end" "12 Unbalanced line=3" "lines '(a' -hi | acl preview doctor.rules"
try "an empty line" "10 BadLine line=3" "lines '(a' ')a' '' | acl preview doctor.rules"
try "a carriage return" "10 BadLine line=2" "lines '(a' ')a\\r' | acl preview doctor.rules"
try "a second root" "14 SecondRoot line=4" "lines 'Ax CDATA 1' '(a' ')a' '(b' | acl preview doctor.rules"
try "no line" "13 NoRoot" "acl preview doctor.rules <nothing.out"
try "a carriage return in a body" "22 BadLicence line=1" "lines 'licence 1\\r' '$root' 'user Ana' end | acl seal keys"
try "an indented body" "22 BadLicence line=1" "lines '    licence 1' '$root' 'user Ana' end | acl seal keys"
try "a short root" "22 BadLicence line=2" "lines 'licence 1' 'root 192458bf' 'user Ana' end | acl seal keys"
try "a rule without an id" "22 BadLicence line=4" "lines 'licence 1' '$root' 'user Ana' '+ //Act' end | acl seal keys"
try "a path without a slash" "21 BadRule line=4 at=0" "lines 'licence 1' '$root' 'user Ana' '+ acts Act' end | acl seal keys"
try "no end of a body" "22 BadLicence line=5" "lines 'licence 1' '$root' 'user Ana' '+ acts //Act' | acl seal keys"

try "a body that is not sealed" "22 BadLicence line=1" "acl view keys hospital.file <doctor.rules"
try "a licence that is sealed already" "22 BadLicence line=1" "acl seal keys <doctor.licence"
try "keys and store swapped" "25 BadKeys line=1" "acl view hospital.file keys <doctor.licence"
try "keys with carriage returns" "25 BadKeys line=1" "sed 's/$/\\r/' keys >$made/returns; acl seal $made/returns <doctor.rules"
try "a licence as an argument" "2 Usage" "acl view keys hospital.file doctor.licence <nothing.out"
try "a query without a slash" "26 BadQuery at=0" "acl view keys hospital.file --query Act <doctor.licence"

try "a full output" "40 SinkFault" "acl preview doctor.rules <hospital.esis >/dev/full"
try "a closed output" "40 SinkFault" "acl preview doctor.rules <hospital.esis >&-"
try "a full output of a view" "40 SinkFault" "acl view keys hospital.file <doctor.licence >/dev/full"
try "a closed output of a view" "40 SinkFault" "acl view keys hospital.file <doctor.licence >&-"
try "a full output of a file, and no root" "40 SinkFault" "acl encode keys <hospital.esis >/dev/full"
try_number "a full standard error after a file" 4 "acl encode keys <hospital.esis 2>/dev/full >$made/file"
cmp -s "$made/file" hospital.file || { echo "acl, a full standard error: not the whole file"; wrong=1; }
try_number "a closed standard error after a file" 4 "acl encode keys <hospital.esis 2>&- >$made/file"
cmp -s "$made/file" hospital.file || { echo "acl, a closed standard error: not the whole file"; wrong=1; }
try_number "a full standard error after a refusal" 34 "acl view keys nowhere.file <doctor.licence 2>/dev/full"
[ "$wrong" -eq 0 ] && echo "Faulty arguments, files and streams each get their outcome."
exit "$wrong"
