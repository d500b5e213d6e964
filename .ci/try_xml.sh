#!/usr/bin/env bash
# Tries examples/xml.sh where its tools stand: on a small file whose lines are stored, and on files that it must refuse. Then
# the way back by examples/to_xml.py, and namespaces on both ways.
set -u
cd "$(dirname "$0")/.." || exit 2
for tool in xmllint onsgmls python3; do
    if ! command -v "$tool" >/dev/null; then
        echo "examples/xml.sh was skipped: $tool is missing"
        exit 0
    fi
done
made=$(mktemp -d) || exit 2
trap 'rm -rf "$made"' EXIT
wrong=0

# what the file shows, the file, the status that is wanted, the lines that are wanted, and maybe --with-files
try() {
    examples/xml.sh ${5:+"$5"} "$2" >"$made/lines" 2>"$made/said"
    local status=$?
    if [ "$status" = "$3" ] && cmp -s "$made/lines" "$4"; then return; fi
    echo "examples/xml.sh, $1: status $status in place of $3, or other lines than in $4"
    cat "$made/said"
    wrong=1
}

: >"$made/nothing"
head -n -1 examples/ward.xml >"$made/cut.xml"
sed 's/&doctor;/\&nurse;/' examples/ward.xml >"$made/unnamed.xml"
printf '<!DOCTYPE a SYSTEM "none.dtd"><a>&b;</a>' >"$made/lost.xml"
try "a small file" examples/ward.xml 0 examples/ward.esis
try "a file that is cut off" "$made/cut.xml" 1 "$made/nothing"
try "an entity without a name" "$made/unnamed.xml" 1 "$made/nothing"
try "an entity of a DTD that can't be read" "$made/lost.xml" 1 "$made/nothing"
try "no file" "$made/none.xml" 1 "$made/nothing"
echo "Ann" >"$made/text"
printf '<!DOCTYPE a [<!ENTITY b SYSTEM "text">]><a>&b;</a>' >"$made/taking.xml"
printf '<!ATTLIST a k CDATA "d">' >"$made/a.dtd"
printf '<!DOCTYPE a SYSTEM "a.dtd"><a></a>' >"$made/typed.xml"
printf '%s\n' '?xml version="1.0" encoding="UTF-8"' '(a' '-Ann\n\012' ')a' C >"$made/taken"
printf '%s\n' '?xml version="1.0" encoding="UTF-8"' 'Ak CDATA d' '(a' ')a' C >"$made/with_k"
try "an entity that is another file" "$made/taking.xml" 1 "$made/nothing"
try "the same where it is meant" "$made/taking.xml" 0 "$made/taken" --with-files
try "a DTD that is another file" "$made/typed.xml" 1 "$made/nothing"
try "the same where it is meant" "$made/typed.xml" 0 "$made/with_k" --with-files

# XML of the lines of a document has these lines again, also where texts and values have what stands for markup.
back() {
    examples/to_xml.py <"$1" >"$made/back.xml"
    examples/xml.sh "$made/back.xml" >"$made/again" 2>"$made/said"
    if cmp -s <(grep -v '^[?C]' "$1") <(grep -v '^[?C]' "$made/again"); then return; fi
    echo "examples/to_xml.py: XML of $1 has other lines"
    wrong=1
}
printf '%s\n' 'Ak CDATA "<&>' '(a' '-<&>"' '(b' ')b' '-x\\n\n\012y\011z' ')a' >"$made/marked"
back "$made/marked"
back examples/ward.esis
back examples/hospital.esis
examples/to_xml.py <examples/doctor.out | xmllint --noout - || wrong=1
# what is no view: an explanation, nothing, a view that was cut off, and a name that is a file's
for refused in examples/explain.out "$made/nothing" <(head -n 3 examples/doctor.out); do
    if examples/to_xml.py <"$refused" >"$made/back.xml" 2>"$made/said" || [ -s "$made/back.xml" ]; then
        echo "examples/to_xml.py: $refused was not refused"
        wrong=1
    fi
done
examples/to_xml.py examples/doctor.out <examples/doctor.out >"$made/back.xml" 2>"$made/said" && wrong=1

# What the XML shows, the XML, the status that is wanted, and the lines of its namespaces, or what is said in place of them.
declares() {
    printf '%s' "$2" >"$made/named.xml"
    rm -f "$made/namespaces"
    examples/xml.sh --namespaces "$made/namespaces" "$made/named.xml" >"$made/lines" 2>"$made/said"
    local status=$?
    if [ "$status" -ne 0 ]; then
        tail -n 1 "$made/said" | sed 's/^xml.sh: [^ ]*named.xml:* //' >"$made/told"
        [ ! -s "$made/lines" ] && [ ! -e "$made/namespaces" ] || status="$status, with lines or namespaces,"
    else
        mv "$made/namespaces" "$made/told"
    fi
    if [ "$status" = "$3" ] && cmp -s "$made/told" <([ -z "$4" ] || echo "$4"); then return; fi
    echo "examples/xml.sh --namespaces, $1: status $status in place of $3, or not: $4"
    cat "$made/told"
    wrong=1
}
declares "no namespace" '<a><b/></a>' 0 ""
declares "a prefix" '<a><h:b xmlns:h="urn:h"/></a>' 0 "h urn:h"
declares "the prefix of an attribute" '<a xmlns:xlink="http://www.w3.org/1999/xlink" xlink:href="b"/>' 0 "xlink http://www.w3.org/1999/xlink"
declares "the default namespace and a prefix" '<a xmlns="urn:d" xmlns:h="urn:h"/>' 0 "- urn:d"$'\n'"h urn:h"
declares "one URI twice" '<a><h:b xmlns:h="urn:h"/><h:c xmlns:h="urn:h"/></a>' 0 "h urn:h"
declares "a default namespace where each name has a prefix" '<h:a xmlns:h="urn:h" xmlns="urn:d"/>' 0 "- urn:d"$'\n'"h urn:h"
declares "a namespace of a DTD" '<!DOCTYPE a [<!ATTLIST a xmlns CDATA #FIXED "urn:d">]><a/>' 0 "- urn:d"
declares "the prefix xml" '<a xml:lang="de"/>' 0 ""
declares "two URIs of a prefix" '<a><h:b xmlns:h="urn:h"/><h:c xmlns:h="urn:i"/></a>' 65 \
    "the prefix 'h' has two meanings: 'urn:h' and 'urn:i'"
declares "two default namespaces" '<a xmlns="urn:d"><b xmlns="urn:e"/></a>' 65 \
    "the default namespace has two meanings: 'urn:d' and 'urn:e'"
declares "a default namespace inside" '<a><b xmlns="urn:d"/></a>' 65 "the default namespace has two meanings: none and 'urn:d'"
declares "a default namespace until the inside" '<a xmlns="urn:d"><b xmlns=""/></a>' 65 \
    "the default namespace has two meanings: 'urn:d' and none"
declares "a prefix after its element" '<a><h:b xmlns:h="urn:h"/><h:c/></a>' 65 "the prefix 'h' is declared nowhere around 'h:c'"
declares "an attribute whose prefix isn't declared" '<a><b h:k="1"/></a>' 65 "the prefix 'h' is declared nowhere around 'b'"
declares "a prefix of no URI" '<a xmlns:h=""/>' 65 "has namespaces that xmllint refuses"
declares "one attribute by two prefixes" '<a xmlns:h="urn:h" xmlns:i="urn:h" h:k="1" i:k="2"/>' 65 "has namespaces that xmllint refuses"
declares "XML that is cut off" '<h:a xmlns:h="urn:h">' 1 "isn't well formed"

# What a view shows, the lines of the namespaces, the XML that is wanted or nothing, and the lines of the view.
view_declares() {
    printf '%b' "$2" >"$made/namespaces"
    printf '%s\n' "${@:4}" >"$made/view"
    if examples/to_xml.py --namespaces "$made/namespaces" <"$made/view" >"$made/back.xml" 2>"$made/said"; then
        xmllint --noout "$made/back.xml" 2>>"$made/said"
    fi
    if [ -z "$3" ]; then
        [ -s "$made/said" ] && [ ! -s "$made/back.xml" ] && return
    else
        [ ! -s "$made/said" ] && cmp -s "$made/back.xml" <(echo "$3") && return
    fi
    echo "examples/to_xml.py --namespaces, $1: it wrote"
    cat "$made/back.xml" "$made/said"
    wrong=1
}
view_declares "prefixes" 'h urn:h?a&b\ni urn:i\nx urn:x\n' \
    '<hidden xmlns:h="urn:h?a&amp;b" xmlns:x="urn:x"><h:b x:k="1"></h:b></hidden>' '(-' 'Ax:k CDATA 1' '(h:b' ')h:b' ')-'
view_declares "the default namespace" '- urn:d\n' '<hidden xmlns="urn:d"><b></b></hidden>' '(-' '(b' ')b' ')-'
view_declares "an element without a prefix" 'h urn:h\n' '<hidden><b></b></hidden>' '(-' '(b' ')b' ')-'
view_declares "prefixes alone" '- urn:d\nh urn:h\n' '<hidden xmlns:h="urn:h"><h:b>: c</h:b></hidden>' '(-' '(h:b' '-: c' ')h:b' ')-'
view_declares "a root that declares some" '- urn:d\nh urn:h\n' '<a xmlns:h="urn:h" xmlns="urn:d"><h:b></h:b></a>' \
    'Axmlns CDATA urn:d' '(a' '(h:b' ')h:b' ')a'
view_declares "prefixes in a text and in a value" 'h urn:h\ni urn:i\nj urn:j\n' '<a xmlns:h="urn:h" xmlns:i="urn:i" k="(i:b)">h:b, j</a>' \
    'Ak CDATA (i:b)' '(a' '-h:b, j' ')a'
view_declares "the prefix xml" '' '<hidden><b xml:lang="de"></b></hidden>' '(-' 'Axml:lang CDATA de' '(b' ')b' ')-'
view_declares "another URI than the view's own" 'h urn:i\n' "" 'Axmlns:h CDATA urn:h' '(h:b' ')h:b'
view_declares "no line of a prefix of the view" 'i urn:h\n' "" '(-' '(h:b' ')h:b' ')-'
for faulty in 'h urn:i' i 'i ' 'i urn i' 'i\turn:i' 'a:i urn:i' 'xml urn:i' 'xmlns urn:i' \
    'i http://www.w3.org/XML/1998/namespace' 'i http://www.w3.org/2000/xmlns/'; do
    view_declares "the line $faulty" "h urn:h\n$faulty\n" "" '(-' '(h:b' ')h:b' ')-'
done
[ "$wrong" -eq 0 ] && echo "examples/xml.sh writes the stored lines and refuses what it must; XML of lines has these lines again, and the namespaces of a view are declared."
exit "$wrong"
