#!/usr/bin/env bash
# Writes an XML file as the lines that `acl` reads as a document: examples/xml.sh [OPTION..] FILE.xml >FILE.esis
#
#   --with-files         the XML may include other files of this machine, a DTD or an entity, whose text becomes part of
#                        the document. Without this option, XML that includes a file is refused
#   --namespaces MADE    write the namespaces that the XML declares to the file MADE, in the form of docs/TOOLS.md.
#                        examples/to_xml.py declares them in XML of a view. XML in which a prefix has two meanings is
#                        refused
#
# `xmllint` reads the XML first. It refuses what isn't well formed, replaces entities by their texts, adds the default
# attributes of a DTD, drops the DTD and writes UTF-8. So no notations are left, and no entities that aren't text, for
# which `onsgmls` would write lines that `acl` refuses. `onsgmls` then writes the lines, byte by byte, by the
# declaration beside this script. Its last line is `C` if it read the whole document and found no fault. It also writes
# a line of the type IMPLIED for each attribute that an element lacks and an earlier element of the same name had. These
# lines are left out: in a view they would reveal elements that it doesn't show.
#
# Status 0: the lines are on standard output. 1: the file is refused, and nothing is written. 2: a tool is missing, no
# file is named, or MADE can't be written. 65: the namespaces are refused, and nothing is written.
set -u
export LC_ALL=C

fail() {
    echo "xml.sh: $2" >&2
    exit "$1"
}

tools=(xmllint onsgmls)
with_files=no
namespaces=
while [ "$#" -gt 1 ]; do
    case $1 in
        --with-files) with_files=yes ;;
        --namespaces)
            namespaces=$2
            tools+=(python3)
            shift
            ;;
        *) break ;;
    esac
    shift
done
[ "$#" -eq 1 ] || fail 2 "usage: examples/xml.sh [--with-files] [--namespaces MADE] FILE.xml"
for tool in "${tools[@]}"; do
    command -v "$tool" >/dev/null || fail 2 "$tool is missing: Debian's packages are libxml2-utils (xmllint), opensp (onsgmls) and python3"
done
here=$(cd "$(dirname "$0")" && pwd) || exit 2
case "$1" in
    -*) file="./$1" ;;
    *) file="$1" ;;
esac
[ -f "$file" ] && [ -r "$file" ] || fail 1 "$1 is no file that can be read"
made=$(mktemp -d) || exit 2
trap 'rm -rf "$made"' EXIT

xmllint --nonet --noent --dtdattr --dropdtd --encode UTF-8 --load-trace "$file" >"$made/xml" 2>"$made/said"
read=$?
grep -v '^Loaded URL=' "$made/said" >&2
[ "$read" -eq 0 ] || fail 1 "$1 isn't well formed"
others=$(sed -n 's/^Loaded URL="\(.*\)" ID=.*/\1/p' "$made/said" | tail -n +2 | paste -sd ' ')
[ -z "$others" ] || [ "$with_files" = yes ] || fail 1 "$1 includes other files of this machine: $others. To allow them: examples/xml.sh --with-files $1"
SP_CHARSET_FIXED=YES SP_ENCODING=iso-8859-1 onsgmls -wno-valid "$here/xml.dcl" "$made/xml" >"$made/lines"
[ "$(tail -n 1 "$made/lines")" = C ] || fail 1 "onsgmls didn't read $1 to its end: its last line isn't C"
if other=$(grep -a -n -m 1 -v '^[()A?L#C-]' "$made/lines"); then
    fail 1 "$1 has something that acl doesn't read. The output of onsgmls has the line $other"
fi
grep -a -v '^A[^ ]* IMPLIED$' "$made/lines" >"$made/document"
if [ -n "$namespaces" ]; then
    python3 "$here/../tools/parts/namespaces.py" <"$made/document" >"$made/namespaces" 2>"$made/refused" ||
        fail "$?" "$1: $(tail -n 1 "$made/refused")"
    ! grep -a -q ':[0-9]*: namespace error : ' "$made/said" || fail 65 "$1 has namespaces that xmllint refuses"
    cat "$made/namespaces" >"$namespaces" || fail 2 "$namespaces can't be written"
fi
cat "$made/document"
