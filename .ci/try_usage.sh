#!/usr/bin/env bash
# Tries that the built program answers a faulty command line with the outcome's line, the wrong argument and the page of the
# command, and explains other outcomes too: all on standard error, and nothing on standard output. Control characters of a
# file's name are escaped. Where standard input is a terminal, a command says first what it reads.
. "$(dirname "$0")/on_program.sh"

# the outcome's line, a second line, a piece of what follows, and the arguments; standard input is a licence body
try() {
    local line=$1 second=$2 piece=$3
    shift 3
    "$program" "$@" <physician.rules >"$made/out" 2>"$made/error"
    local status=$?
    [ "acl: $status" = "$(cut -d ' ' -f 1,2 <<<"$line")" ] || { echo "acl $*: status $status"; wrong=1; }
    [ ! -s "$made/out" ] || { echo "acl $*: something on standard output"; wrong=1; }
    [ "$(sed -n 1p "$made/error")" = "$line" ] || { echo "acl $*: not $line"; wrong=1; }
    [ -z "$second" ] || [ "$(sed -n 2p "$made/error")" = "$second" ] || { echo "acl $*: not $second"; wrong=1; }
    grep -qF -- "$piece" "$made/error" || { echo "acl $*: nothing of $piece"; wrong=1; }
}

usage="acl: 2 Usage"
for piece in "Usage: acl preview <RULES> [OPTIONS]" "Usage: acl encode <KEYS>" "Usage: acl seal <KEYS>" \
    "Usage: acl view <KEYS> <STORE> [OPTIONS]" "Usage: acl explain <KEYS> <STORE>" "Usage: acl sample <N>"; do
    try "$usage" "" "$piece"
    try "$usage" "acl: unexpected argument 'fly'" "$piece" fly high
    try "$usage" "Give each reader the part of an XML document that a licence allows" "$piece" --help
done
try "$usage" "acl: an argument is missing after 'preview'" "--explain" preview
try "$usage" "acl: an argument is missing after '--query'" "--query <P>" preview physician.rules --query
try "$usage" "acl: unexpected argument '--explain'; --query and --explain are given at most once, and not together" "--query <P>" \
    preview physician.rules --query /a --explain
try "$usage" "acl: an argument is missing after 'keys'" "Usage: acl view <KEYS> <STORE> [OPTIONS]" view keys
try "$usage" "acl: unexpected argument 'doctor.licence'; the input is read from standard input: write < before its file" \
    "acl view my.keys my.file <my.licence" view keys hospital.file doctor.licence
try "$usage" "acl: unexpected argument 'more'; the input is read from standard input: write < before its file" "Usage: acl seal <KEYS>" seal keys more
try "$usage" "acl: unexpected argument 'keys'; options come after the command and its files" "" view --query /a keys hospital.file
try "$usage" "Show an encrypted document's view under a sealed licence" "Usage: acl view" view --help
try "$usage" "acl: unexpected argument '0'" "from 1 to 20000" sample 0
try "acl: 3 KeysFault" "acl: nowhere.rules: not found, or not a readable file" "" preview nowhere.rules
try "acl: 3 KeysFault" "acl: nowhere: not found, or not a readable file" "" view nowhere hospital.file
try "acl: 25 BadKeys line=1" "acl: hospital.file: expected 'document', a space and 32 hexadecimal digits; tools/why.py FILE says more" "" view hospital.file keys
try "acl: 22 BadLicence line=1" "acl: standard input: expected the seal line, which acl seal writes before the body; tools/why.py FILE says more" \
    "" view keys hospital.file
try "acl: 10 BadLine line=1" "acl: standard input: not a line of a document; tools/why.py FILE says why, and examples/xml.sh converts XML files" \
    "" encode keys
try "acl: 21 BadRule line=4 at=19" "acl: misspelled.rules: the path is invalid after its first 19 bytes, or ends too early; tools/why.py FILE shows the place" \
    "" preview misspelled.rules
try "acl: 3 KeysFault" 'acl: no\u{1b}[2Jwhere: not found, or not a readable file' "" preview $'no\e[2Jwhere'

# what a command writes to standard error that gets no input from a terminal, and whether the terminal's line is there
on_terminal() {
    local wanted=$1
    shift
    python3 - "$wanted" "$program" "$@" <<'PYTHON' || wrong=1
import os, pty, subprocess, sys
wanted, command = sys.argv[1], sys.argv[2:]
ours, theirs = pty.openpty()
ran = subprocess.Popen(command, stdin=theirs, stdout=subprocess.PIPE, stderr=subprocess.PIPE)
os.close(theirs)
os.write(ours, b"\x04")
out, error = ran.communicate(timeout=20)
lines = error.decode().split("\n")
said = [line for line in lines if line.endswith("from the terminal; Ctrl-D ends them") or line.endswith("from the terminal; Ctrl-D ends it")]
if said != ([wanted] if wanted else []) or (wanted and lines[0] != wanted) or (wanted and out):
    sys.exit(f"on a terminal, {' '.join(command[1:])}: {error!r}")
PYTHON
}
on_terminal "acl: reading the lines of a document from the terminal; Ctrl-D ends them" preview physician.rules
on_terminal "acl: reading the lines of a document from the terminal; Ctrl-D ends them" encode keys
on_terminal "acl: reading a licence body from the terminal; Ctrl-D ends it" seal keys
on_terminal "acl: reading a sealed licence from the terminal; Ctrl-D ends it" view keys hospital.file
on_terminal "" sample 1
on_terminal "" view keys
[ "$wrong" -eq 0 ] && echo "A faulty command line gets the wrong argument and the page of its command, and a refusal its cause."
exit "$wrong"
