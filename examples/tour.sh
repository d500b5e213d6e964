#!/usr/bin/env bash
# Shows what `acl` does with the files beside this script, and compares each output with a stored one.
# It uses the proved program if there is one, and makes an unproved build with `rt try` if not.
set -u
cd "$(dirname "$0")" || exit 2
program=../crates/acl_cli/out/acl_cli
made=$(mktemp -d) || exit 2
trap 'rm -rf "$made"' EXIT

# Calls $1 with each step: its name, the expected status, the stored output (if the name ends in `.error`, the first
# line on standard error), the input, what the step shows, and the arguments of `acl`.
each_step() {
    "$1" encode 0 encode.error hospital.esis "A publisher encrypts a document. The file, here hospital.file, may be on any store. Its root is printed." encode keys
    "$1" seal 0 physician.licence physician.rules "A reader's rules are sealed, with that root in them: a physician sees the administration of her own patients." seal keys
    "$1" view 0 physician.out physician.licence "That reader's view of the file. Elements around it are kept as '-', without their texts." view keys hospital.file
    "$1" doctor 0 doctor.out doctor.licence "Another reader's view of the same file. It has a denial inside a grant, and a nearer grant inside the denial." view keys hospital.file
    "$1" explain 0 explain.out doctor.licence "Why: for each element that a rule selects, the rule that decides there." explain keys hospital.file
    "$1" answer 0 answer.out doctor.licence "A query on the reader's view." view keys hospital.file --query '//Act[Details]'
    "$1" hidden 0 nothing.out doctor.licence "The predicates of a query see only what the reader sees. The patient's name is hidden, so nothing is found." view keys hospital.file --query '//Folder[Admin/Fname]'
    "$1" changed 35 changed.error physician.licence "One byte of the file was changed: it is refused, and nothing is written." view keys changed.file
    "$1" forged 20 forged.error forged.licence "One rule of the licence was changed: the licence is refused, too." view keys hospital.file
    "$1" preview 0 physician.out hospital.esis "Before rules are sealed, a publisher checks what they show. That needs no keys and no file." preview physician.rules
    "$1" lost 12 lost.error cut.esis "A document that was cut off is refused at the line that is missing." preview admin.rules
    "$1" misspelled 21 misspelled.error hospital.esis "A misspelled rule is refused at its line, and at the byte offset in its path." preview misspelled.rules
    "$1" sample 0 sample.out nothing.out "A document to try things on, as large as you like." sample 1
}

# Make a file with one byte changed, and a licence with one rule changed.
cp hospital.file "$made/changed.file"
printf x | dd of="$made/changed.file" bs=1 seek=100 conv=notrunc status=none
sed 's/Admin$/Act/' physician.licence >"$made/forged.licence"

# The path of a step's file: it is beside this script, or in the folder of files that were made.
place() { if [ -e "$1" ]; then echo "$1"; else echo "$made/$1"; fi; }

# Whether there is a proved program and no source is newer.
stands() {
    [ -x "$program" ] && [ -z "$(find ../crates ../crates.txt \( -name '*.rt' -o -name '*.antt' -o -name crates.txt \) -not -path '*/out/*' -newer "$program" -print -quit)" ]
}

# Runs a step, and keeps its standard output, its standard error and its status.
run_proved() {
    local words=()
    for word in "${@:6}"; do
        if [ -e "$made/$word" ]; then words+=("$made/$word"); else words+=("$word"); fi
    done
    "$program" "${words[@]}" <"$(place "$4")" >"$made/$1.out" 2>"$made/$1.error"
    echo "$?" >"$made/$1.status"
}

# Prepares a step for `rt try`, which finds the files that the arguments name by their names.
lay_out() {
    cp "$(place "$4")" "$made/cases/$1"
    printf '%s\n' "${@:6}" >"$made/cases/$1.args"
    : >"$made/$1.out"
    : >"$made/$1.error"
    echo "none" >"$made/$1.status"
}

# Runs all steps with one unproved build. `rt try` writes each output after a line `== STEP`, and each status after the
# step's own lines.
run_unproved() {
    mkdir "$made/cases"
    each_step lay_out
    local data=()
    for file in *.rules keys hospital.file; do data+=(--data "$file=../../examples/$file"); done
    data+=(--data "changed.file=$made/changed.file")
    (cd ../crates/acl_cli && rt try --cases "$made/cases" "${data[@]}") >"$made/all.out" 2>"$made/all.error"
    awk -v made="$made" '/^== / { file = made "/" $2 ".out"; next } file { print > file }' "$made/all.out"
    awk -v made="$made" '/^(acl: |root )/ { if (said == "") said = $0 } /^case=/ { name = substr($1, 6); sub(/.*status=/, ""); print $1 > (made "/" name ".status"); if (said != "") print said > (made "/" name ".error"); said = "" }' "$made/all.error"
}

# Prints a step with its output, and compares it with the stored one.
show() {
    local status words kind=out
    status=$(cat "$made/$1.status")
    words=$(printf " '%s'" "${@:6}" | sed "s/'\([A-Za-z0-9.-]*\)'/\1/g")
    printf '\n%s\n$ acl%s <%s\n' "$5" "$words" "$4"
    case $3 in *.error) kind=error ;; esac
    sed "s,$made/,," "$made/$1.$kind"
    [ "$kind" = out ] || sed -i 2,\$d "$made/$1.error"
    if [ "$status" = "$2" ] && cmp -s "$made/$1.$kind" "$3"; then
        echo "As stored in examples/$3, with status $2."
    else
        echo "NOT as stored in examples/$3, with status $2: this run ended with $status."
        wrong=1
    fi
}

if stands; then
    echo "This is the proved program, crates/acl_cli/out/acl_cli."
    each_step run_proved
elif command -v rt >/dev/null; then
    echo "There is no proved program as new as its sources. So this shows an unproved build, which takes a minute or two to make."
    run_unproved
else
    echo "There is no proved program as new as its sources, and rt is not on the path to make one. It comes with the Rattle kit."
    exit 2
fi
wrong=0
each_step show
if [ "$wrong" -eq 0 ]; then printf '\nThe tour ended well.\n'; else printf '\nThe tour found a difference.\n'; fi
exit "$wrong"
