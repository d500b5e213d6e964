#!/usr/bin/env bash
# Tries tools/publish.sh, tools/read.sh and examples/many.sh with the built program: on good files, on names with spaces, and
# on what they must refuse, each with its status. What needs a package that is missing is skipped, and says so.
. "$(dirname "$0")/on_program.sh"
export ACL=$PWD/$program
for tool in xmllint onsgmls python3; do
    if ! command -v "$tool" >/dev/null; then
        echo "tools/ was skipped: $tool is missing (Debian's libxml2-utils, opensp and python3)"
        exit 0
    fi
done
tools=$PWD/../tools
keys=$made/keys
(umask 077 && cp keys "$keys")
folder="$made/a folder"
zeros=$(printf '0%.0s' {1..64})
root=192458bf220db5d92fd62d4af0d3cecb63490b62c211eba93d9f548995a1a1d0

# What is tried, the status that is wanted, a line or a part of one that the run must say, and its words.
try() {
    "${@:4}" >"$made/out" 2>"$made/error"
    local status=$?
    [ "$status" = "$2" ] || complain "$1" "status $status in place of $2"
    [ -z "$3" ] || grep -qF -- "$3" "$made/out" "$made/error" || complain "$1" "nothing of: $3"
}

complain() {
    echo "tools, $1: $2"
    sed 's/^/    /' "$made/out" "$made/error"
    wrong=1
}

same() {
    cmp -s "$2" "$3" || complain "$1" "$2 is not as $3"
}

# That the last run left nothing behind: the folder has the files that are named, and no other.
left() {
    same "$1" <(cd "$folder" && find . -mindepth 1 | sort) <(printf './%s\n' "${@:2}" | sort)
}

# The body of a reader, of the lines that are given.
body() {
    printf '%s\n' "${@:2}" end >"$folder/$1"
}

begin() {
    rm -rf "$folder"
    mkdir "$folder"
    cp hospital.xml "$folder/a ward.xml"
}

publish() { (cd "$folder" && "$tools/publish.sh" "$@"); }
read_view() { (cd "$folder" && "$tools/read.sh" "$@"); }

# The files of examples/, from XML: the same root, file and licence as those that are stored.
begin
sed 2d physician.rules >"$folder/Dr Ana.rules"
sed "2s/.*/root $zeros/" doctor.rules >"$folder/bea.rules"
try "a missing root line" 0 "./a ward.acl: made, its root is $root" publish "$keys" "./a ward.xml" "Dr Ana.rules"
try "a missing root line again" 0 "Dr Ana.rules: the view has 12 lines and 5 elements, 2 of them only as '-'" \
    publish "$keys" "a ward.xml" "Dr Ana.rules"
try "an old root line" 0 "bea.rules: line 2, the root of another file, is replaced: it was 'root $zeros'" \
    publish "$keys" "a ward.xml" "Dr Ana.rules" bea.rules
left "two readers" "a ward.xml" "a ward.acl" "Dr Ana.rules" "Dr Ana.licence" bea.rules bea.licence
same "the file" "$folder/a ward.acl" hospital.file
same "a body" "$folder/Dr Ana.rules" physician.rules
same "a body" "$folder/bea.rules" doctor.rules
same "a licence" "$folder/Dr Ana.licence" physician.licence
same "a licence" "$folder/bea.licence" doctor.licence
begin
sed 2d physician.rules >"$folder/Dr Ana.rules"
mkdir "$folder/the store"
try "a folder for the file" 0 "the line of the root was missing, and is put in as line 2" \
    publish "$keys" "a ward.xml" "Dr Ana.rules" -o "the store"
left "a folder for the file" "a ward.xml" "Dr Ana.rules" "Dr Ana.licence" "the store" "the store/a ward.acl"

# A view as XML, an answer, and refusals by their number and name alone.
./to_xml.py <physician.out >"$made/wanted.xml"
try "a view" 0 "" read_view "$keys" "the store/a ward.acl" "Dr Ana.licence"
same "a view" "$made/out" "$made/wanted.xml"
try "a query" 0 "<Fname>Li</Fname>" read_view "$keys" "the store/a ward.acl" "Dr Ana.licence" --query //Fname
try "a query that finds nothing" 1 "read.sh: the view is empty" read_view "$keys" "the store/a ward.acl" "Dr Ana.licence" --query //Act
refused() {
    try "$@"
    same "$1: what is said" "$made/error" <(echo "$3")
    same "$1: what is shown" "$made/out" nothing.out
}
for option in "--query //Act[1]" --query=//Act[1]; do
    # shellcheck disable=SC2086
    try "a query with a position" 26 "read.sh: refused: 26 BadQuery" read_view "$keys" "the store/a ward.acl" "Dr Ana.licence" $option
    same "a query with a position, what is said" "$made/error" <(printf '%s\n' "the query: positions such as [1] aren't supported" \
        "    //Act[1]" "          ^" "read.sh: refused: 26 BadQuery")
    same "a query with a position, what is shown" "$made/out" nothing.out
done
refused "a word too many" 2 "read.sh: refused: 2 Usage" read_view "$keys" "the store/a ward.acl" "Dr Ana.licence" more
refused "no keys" 3 "read.sh: refused: 3 KeysFault" read_view nowhere "the store/a ward.acl" "Dr Ana.licence"
refused "no store" 34 "read.sh: refused: 34 StoreFault" read_view "$keys" nowhere "Dr Ana.licence"
refused "no licence" 2 "read.sh: nowhere is no file that can be read" read_view "$keys" "the store/a ward.acl" nowhere
refused "a body in place of a licence" 22 "read.sh: refused: 22 BadLicence" read_view "$keys" "the store/a ward.acl" "Dr Ana.rules"
(umask 077 && { echo "document $(printf '1%.0s' {1..32})"; sed -n 2p keys; } >"$folder/other keys")
refused "another document key" 32 "read.sh: refused: 32 WrongKey" read_view "other keys" "the store/a ward.acl" "Dr Ana.licence"
{ sed -n 1p keys; echo "seal $zeros"; } >"$folder/other keys"
refused "another seal key" 20 "read.sh: refused: 20 BadSeal" read_view "other keys" "the store/a ward.acl" "Dr Ana.licence"
sed 's/Admin$/Act/' "$folder/Dr Ana.licence" >"$folder/forged"
refused "a licence that was changed" 20 "read.sh: refused: 20 BadSeal" read_view "$keys" "the store/a ward.acl" forged
cp hospital.file "$folder/changed"
printf x | dd of="$folder/changed" bs=1 seek=100 conv=notrunc status=none
try "keys that anybody can read" 0 "read.sh: warning: $PWD/keys: any user of this machine can read or change these keys" \
    read_view "$PWD/keys" "the store/a ward.acl" "Dr Ana.licence"
refused "a byte that was changed" 35 "read.sh: refused: 35 BadFragment" read_view "$keys" changed "Dr Ana.licence"

# What publish.sh refuses leaves the folder as it was, and nothing half made.
begin
body ana "licence 1" "user Ana" "+ all /*" "- number //SSM"
cp "$folder/ana" "$made/ana"
try "a denial that selects nothing" 1 "warning: ana: the denial 'number' selects nothing, and hides nothing: //SSM" publish "$keys" "a ward.xml" ana
left "a denial that selects nothing" "a ward.xml" ana
same "a denial that selects nothing" "$folder/ana" "$made/ana"
try "the same where it is meant" 0 "warning: ana: the denial 'number' selects nothing, and hides nothing: //SSM" publish --allow-idle "$keys" "a ward.xml" ana
left "the same where it is meant" "a ward.xml" ana "a ward.acl" ana.licence
begin
body bea.rules "licence 1" "user Bea" "+ wards //Ward" "- acts //Act" "- own //Act[RPhys='Ana']" "+ closed /Hospital[Ward]"
try "rules that decide nowhere" 0 "warning: bea.rules: the grant 'wards' selects nothing: //Ward" publish "$keys" "a ward.xml" bea.rules
try "a denial inside another" 0 "warning: bea.rules: the denial 'own' decides nowhere: an earlier denial stands" \
    publish "$keys" "a ward.xml" bea.rules
try "a rule whose id is closed" 0 "warning: bea.rules: the grant 'closed' selects nothing: /Hospital[Ward]" publish "$keys" "a ward.xml" bea.rules
try "an empty view" 0 "bea.rules: the view is empty" publish "$keys" "a ward.xml" bea.rules
try "an empty view as XML" 1 "read.sh: the view is empty" read_view "$keys" "a ward.acl" bea.licence
begin
body ana.rules "licence 1" "user Ana" "+ acts Act"
try "a path without a slash" 21 "acl: 21 BadRule line=4 at=0" publish "$keys" "a ward.xml" ana.rules
try "a path without a slash, by its file" 21 "acl: ana.rules: " publish "$keys" "a ward.xml" ana.rules
try "a path without a slash, why" 21 "ana.rules:4: a path begins with / or //" publish "$keys" "a ward.xml" ana.rules
try "keys that anybody can read" 21 "publish.sh: warning: $PWD/keys: any user of this machine" publish "$PWD/keys" "a ward.xml" ana.rules
left "a path without a slash" "a ward.xml" ana.rules
body ana.rules "user Ana" "+ acts //Act"
try "a body without its first line" 22 "acl: 22 BadLicence line=1" publish "$keys" "a ward.xml" ana.rules
body ana.rules "licence 1" "user Ana" "+ acts //Act"
try "wrong keys" 25 "acl: 25 BadKeys line=1" publish ana.rules "a ward.xml" ana.rules
try "wrong keys, why" 25 "ana.rules: a licence body; preview takes it as RULES" publish ana.rules "a ward.xml" ana.rules
try "no keys" 3 "acl: 3 KeysFault" publish nowhere "a ward.xml" ana.rules
head -c 100 hospital.xml >"$folder/cut.xml"
try "XML that isn't well formed" 1 "xml.sh: ./cut.xml isn't well formed" publish "$keys" ./cut.xml ana.rules
try "no document" 2 "publish.sh: nowhere.xml is no file that can be read" publish "$keys" nowhere.xml ana.rules
try "no folder for the file" 2 "" publish "$keys" "a ward.xml" ana.rules -o nowhere
try "no body" 2 "publish.sh: usage: tools/publish.sh" publish "$keys" "a ward.xml"
cp "$folder/ana.rules" "$folder/ana"
try "two bodies of one licence" 2 "ana.licence would be the licence of two bodies" publish "$keys" "a ward.xml" ana.rules ana
left "refusals" "a ward.xml" cut.xml ana.rules ana
try "no program" 69 "publish.sh: nowhere is missing" env ACL=nowhere "$tools/publish.sh" keys hospital.xml doctor.rules

# Namespaces: views without the element that declares them are XML that has them, and an edition without any leaves none.
begin
scan() {
    try "$1" 0 "" read_view "$keys" scans.acl ana.licence --namespaces scans.namespaces "${@:3}"
    same "$1" "$made/out" <(echo "$2")
    xmllint --noout "$made/out" 2>"$made/error" && [ ! -s "$made/error" ] || complain "$1" "xmllint has something to say of it"
}
xlink=http://www.w3.org/1999/xlink
echo "<h:ward xmlns:h='urn:h' xmlns:x='$xlink' xmlns:z='urn:z'><h:scan x:href='7'>arm</h:scan><z:z/></h:ward>" >"$folder/scans.xml"
body ana.rules "licence 1" "user Ana" "+ scans //h:scan"
try "prefixes" 0 "scans.namespaces: made, for tools/read.sh --namespaces" publish "$keys" scans.xml ana.rules
left "prefixes" "a ward.xml" scans.xml scans.acl scans.namespaces ana.rules ana.licence
same "prefixes" "$folder/scans.namespaces" <(printf '%s\n' "h urn:h" "x $xlink" "z urn:z")
wanted="<hidden xmlns:h=\"urn:h\" xmlns:x=\"$xlink\"><h:scan x:href=\"7\">arm</h:scan></hidden>"
scan "prefixes as XML" "$wanted"
scan "prefixes of a query" "$wanted" --query //h:scan
cp "$folder/scans.namespaces" "$folder/of prefixes"
echo "<ward xmlns='urn:d'><scan>arm</scan><name/></ward>" >"$folder/scans.xml"
body ana.rules "licence 1" "user Ana" "+ scans //scan"
try "a default namespace" 0 "" publish "$keys" scans.xml ana.rules
scan "a default namespace as XML" '<hidden xmlns="urn:d"><scan>arm</scan></hidden>'
echo "<ward><h:scan xmlns:h='urn:h'/><h:scan xmlns:h='urn:i'/></ward>" >"$folder/scans.xml"
body ana.rules "licence 1" "user Ana" "+ scans //h:scan"
try "two URIs" 65 "xml.sh: scans.xml: the prefix 'h' has two meanings: 'urn:h' and 'urn:i'" publish "$keys" scans.xml ana.rules
try "two URIs, what to do" 65 "publish.sh: to publish it without its namespaces: --no-namespaces" publish "$keys" scans.xml ana.rules
same "two URIs" "$folder/scans.namespaces" <(echo "- urn:d")
try "two URIs where it is meant" 0 "scans.namespaces: removed" publish --no-namespaces "$keys" scans.xml ana.rules
left "two URIs where it is meant" "a ward.xml" scans.xml scans.acl ana.rules ana.licence "of prefixes"
try "no namespaces" 2 "read.sh: nowhere is no file that can be read" read_view "$keys" scans.acl ana.licence --namespaces nowhere
try "namespaces of another document" 1 "here 'xmlns:h' has another meaning" read_view "$keys" scans.acl ana.licence --namespaces "of prefixes"

# Many documents, where one of them is refused; then that one again, mended.
if command -v parallel >/dev/null; then
    begin
    body ana.rules "licence 1" "user Ana" "+ own //Folder[Act/RPhys=USER]"
    many() { "$tools/../examples/many.sh" "$@"; }
    try "made documents" 0 "" many --make 20 "$folder/in box"
    head -c 300 "$folder/in box/hospital 07.xml" >"$made/cut.xml"
    mv "$folder/in box/hospital 07.xml" "$made/whole.xml"
    cp "$made/cut.xml" "$folder/in box/hospital 07.xml"
    try "many documents" 1 "20 documents: 19 published, 1 refused, 0 left" many "$keys" "$folder/in box" "$folder/the out" "$folder/ana.rules"
    grep -qF "refused, with status 1: $(readlink -f "$folder/in box/hospital 07.xml")" "$made/out" || complain "many documents" "the refused one isn't named"
    [ -e "$folder/the out/hospital 07" ] && complain "many documents" "something of the refused one stands"
    cp "$made/whole.xml" "$folder/in box/hospital 07.xml"
    try "many documents, the refused one again" 0 "20 documents: 20 published, 0 refused, 0 left" \
        many "$keys" "$folder/in box" "$folder/the out" "$folder/ana.rules" -- --resume-failed
    same "many documents" <(cd "$folder/the out" && find . -type f -not -name '.*' | wc -l) <(echo 81)
    try "the view of one of them" 0 "<Fname>Patient07.2</Fname>" "$tools/read.sh" "$keys" "$folder/the out/hospital 07/hospital 07.acl" \
        "$folder/the out/hospital 07/ana.licence"
    rm "$folder/in box/hospital 20.xml"
    try "another folder" 2 "is not as it was when" many "$keys" "$folder/in box" "$folder/the out" "$folder/ana.rules"
else
    echo "examples/many.sh was skipped: parallel is missing (Debian's parallel)"
fi
[ "$wrong" -eq 0 ] && echo "Documents are published and read by tools/, and what they must refuse they refuse."
exit "$wrong"
