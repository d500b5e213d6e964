#!/usr/bin/env bash
# Publishes an XML document to its readers: tools/publish.sh [OPTION..] KEYS DOCUMENT.xml READER.rules..
#
# It encodes the document as DOCUMENT.acl, and writes the root of that file into the body of each reader. It prints how
# much each reader will see, and warns of rules that do nothing. Then it seals the bodies: it makes READER.licence
# beside READER.rules. No file is moved into place before all files are made, so a refusal leaves all files as they
# were.
#
# For a document that declares namespaces it makes DOCUMENT.namespaces beside DOCUMENT.acl, for tools/read.sh. For one
# that declares none, it removes such a file of an earlier edition.
#
#   -o DIR           write DOCUMENT.acl to the folder DIR, and not beside the document
#   --allow-idle     only warn of a denial that selects nothing, and don't stop
#   --with-files     the document may include other files of this machine, as examples/xml.sh says
#   --no-namespaces  don't make DOCUMENT.namespaces. A prefix may then have two meanings, or none
#
# It needs `acl` on the path, or its path in ACL, and Debian's libxml2-utils (xmllint) and opensp (onsgmls). Without
# --no-namespaces it needs python3, too.
#
# Status 0: all is published. 1: a denial selects nothing, or examples/xml.sh refuses the document. 2: the arguments are
# not as above, or a file can't be read or made. 65: examples/xml.sh refuses the namespaces. 69: a tool is missing. Any
# other status is that of `acl`, which docs/FORMATS.md lists.
. "$(dirname -- "$(readlink -f -- "$0")")/parts.sh" || exit 2
top=$(dirname -- "$(dirname -- "$(readlink -f -- "$0")")")

usage() {
    fail "$usage_status" "usage: tools/publish.sh [-o DIR] [--allow-idle] [--with-files] [--no-namespaces] KEYS DOCUMENT.xml READER.rules.."
}

folder=
allow_idle=no
with_files=()
with_namespaces=yes
words=()
while [ "$#" -gt 0 ]; do
    case $1 in
        -o)
            [ "$#" -gt 1 ] || usage
            folder=$2
            shift
            ;;
        --allow-idle) allow_idle=yes ;;
        --with-files) with_files=(--with-files) ;;
        --no-namespaces) with_namespaces=no ;;
        --)
            shift
            words+=("$@")
            break
            ;;
        -*) usage ;;
        *) words+=("$1") ;;
    esac
    shift
done
[ "${#words[@]}" -ge 3 ] || usage
keys=$(plain_name "${words[0]}")
document=$(plain_name "${words[1]}")
bodies=()
for body in "${words[@]:2}"; do bodies+=("$(plain_name "$body")"); done

need xmllint "it is in Debian's package libxml2-utils"
need onsgmls "it is in Debian's package opensp"
[ "$with_namespaces" = no ] || need python3 "it is in Debian's package python3. Without it: --no-namespaces"
need_acl
warn_of_keys "$keys"
for file in "$document" "${bodies[@]}"; do
    [ -f "$file" ] && [ -r "$file" ] || fail "$usage_status" "$file is no file that can be read"
done
store=${document%.xml}.acl
[ -z "$folder" ] || store=$(plain_name "$folder")/${store##*/}
namespaces=${store%.acl}.namespaces

licences=()
for body in "${bodies[@]}"; do licences+=("${body%.rules}.licence"); done
twice=$(printf '%s\n' "${licences[@]}" | sort | uniq -d | head -n 1)
[ -z "$twice" ] || fail "$usage_status" "$twice would be the licence of two bodies"

# New files are made in the folder of the files that they will replace, so that each move is one step of the file
# system.
beside=()
made=$(mktemp -d) || exit 2
trap 'rm -rf -- "$made" "${beside[@]}"' EXIT
trap 'exit 130' INT
trap 'exit 143' TERM
trap 'exit 129' HUP

# Makes a file in the folder of $1, with the mode that new files get. Sets $new to its name.
new=
make_beside() {
    [ ! -d "$1" ] || fail "$usage_status" "$1 is a folder"
    new=$(mktemp -- "$(dirname -- "$1")/.publish.XXXXXXXX") || exit "$usage_status"
    beside+=("$new")
    chmod "$(printf '%o' $((0666 & ~$(umask))))" "$new" || exit "$usage_status"
}

# Shows the line that `acl` refuses with the status $2, and why: of the keys, or of the body $1. Without python3 it
# shows nothing.
show_why() {
    command -v python3 >/dev/null || return
    case $2 in
        21 | 22 | 23 | 24) python3 "$top/tools/why.py" --name "$1" "$made/body" >&2 ;;
        25) python3 "$top/tools/why.py" "$keys" >&2 ;;
    esac
}

# Runs `acl` with the arguments after $1, which is the file that the run is about. If `acl` refuses, it prints the
# refusal, shows why, and ends the script.
step() {
    "$acl" "${@:2}" 2>"$made/said"
    local status=$?
    [ "$status" -ne 0 ] || return 0
    local said
    said=$(tr -d '\0' <"$made/said")
    echo "publish.sh: $1: acl $2 ended with status $status" >&2
    echo "${said//"$made/body"/"$1"}" >&2
    show_why "$1" "$status"
    exit "$status"
}

# Writes the body $1 to $2, with the root in its line, and prints what was changed.
put_root() {
    local first second
    first=$(head -n 1 -- "$1" | tr -d '\0')
    second=$(sed -n 2p -- "$1" | tr -d '\0')
    case $second in
        "root $root") cat -- "$1" >"$2" ;;
        root | "root "*)
            sed "2s/.*/root $root/" -- "$1" >"$2"
            echo "$1: line 2, the root of another file, is replaced: it was '${second:0:80}'"
            ;;
        *)
            if [ "$first" = "licence 1" ]; then
                sed "1a root $root" -- "$1" >"$2"
                echo "$1: the line of the root was missing, and is put in as line 2"
            else
                # This is no body. `acl` will refuse it.
                cat -- "$1" >"$2"
            fi
            ;;
    esac || fail "$usage_status" "$1 can't be read, or $2 can't be written"
}

# Prints how much of the document the view under $made/body shows. $1 is the name of the body.
say_view() {
    step "$1" preview "$made/body" <"$made/lines" >"$made/view"
    if [ ! -s "$made/view" ]; then
        echo "$1: the view is empty"
        return
    fi
    local lines elements hidden
    lines=$(wc -l <"$made/view")
    elements=$(grep -a -c '^(' "$made/view")
    hidden=$(grep -a -c -x '(-' "$made/view")
    echo "$1: the view has $(count "$lines" line) and $(count "$elements" element), $hidden of them only as '-'"
}

# Prints the line numbers of the rules in $made/body that decide at some element. For this each id is replaced by a line
# number, since `closed` in an explanation may also be the id of a rule.
deciding_lines() {
    awk '/^[+-] / { sub(/^[+-] [^ ]+/, substr($0, 1, 1) " " NR) } { print }' "$made/body" >"$made/numbered" || exit 2
    step "$1" preview "$made/numbered" --explain <"$made/lines" >"$made/explained"
    awk '!seen[$2]++ { print $2 }' "$made/explained"
}

# Whether the rule at line $2 of $made/body selects an element. It is found by an explanation of that path alone, as a
# grant.
selects() {
    {
        sed -n 1,3p "$made/body"
        sed -n "$2s/^[+-] [^ ]* /+ only /p" "$made/body"
        echo end
    } >"$made/alone"
    step "$1" preview "$made/alone" --explain <"$made/lines" >"$made/explained"
    grep -a -q '^+ only ' "$made/explained"
}

# Warns of each rule of $made/body that decides nowhere. Denials that select nothing are counted, since whoever wrote
# one meant to hide something.
idle_denials=0
warn_idle() {
    local deciding number rule sign id
    deciding=$(deciding_lines "$1") || exit
    while IFS=: read -r number rule; do
        ! grep -q -x "$number" <<<"$deciding" || continue
        sign=${rule%% *}
        id=${rule#* }
        id=${id%% *}
        if selects "$1" "$number"; then
            case $sign in
                -) warn "$1" "the denial '$id' decides nowhere: an earlier denial stands wherever it selects something" ;;
                +) warn "$1" "the grant '$id' decides nowhere: a denial or an earlier grant stands wherever it selects something" ;;
            esac
        elif [ "$sign" = - ]; then
            warn "$1" "the denial '$id' selects nothing, and hides nothing: ${rule#* * }"
            idle_denials=$((idle_denials + 1))
        else
            warn "$1" "the grant '$id' selects nothing: ${rule#* * }"
        fi
    done < <(grep -a -n '^[+-] ' "$made/body" | tr -d '\0')
}

# Prints the warning $2 about the body $1.
warn() {
    echo "publish.sh: warning: $1: $2" >&2
}

# Moves the new file $1 to its place $2.
move() {
    mv -f -T -- "$1" "$2" || fail "$usage_status" "$2 could not be put in its place"
}

# Writes the lines of the document to $made/lines, and its namespaces to $made/namespaces. With --no-namespaces the
# second file is empty.
write_lines() {
    local options=("${with_files[@]}") status
    [ "$with_namespaces" = no ] || options+=(--namespaces "$made/namespaces")
    : >"$made/namespaces"
    "$top/examples/xml.sh" "${options[@]}" "$document" >"$made/lines"
    status=$?
    [ "$status" -ne "$bad_namespaces_status" ] || fail "$status" "to publish it without its namespaces: --no-namespaces"
    [ "$status" -eq 0 ] || exit "$status"
}

write_lines
make_beside "$store"
file=$new
step "$document" encode "$keys" <"$made/lines" >"$file"
root=$(sed -n 's/^root \([0-9a-f]\{64\}\)$/\1/p' "$made/said")
[ -n "$root" ] || fail "$usage_status" "acl encode didn't say the root of $document"

new_namespaces=
if [ -s "$made/namespaces" ]; then
    make_beside "$namespaces"
    new_namespaces=$new
    cat "$made/namespaces" >"$new" || exit "$usage_status"
fi
new_bodies=()
new_licences=()
for at in "${!bodies[@]}"; do
    body=${bodies[at]}
    put_root "$body" "$made/body"
    say_view "$body"
    warn_idle "$body"
    make_beside "$(readlink -f -- "$body")"
    new_bodies+=("$new")
    cat "$made/body" >"$new" && chmod --reference="$body" "$new" || exit 2
    make_beside "${licences[at]}"
    new_licences+=("$new")
    step "$body" seal "$keys" <"$made/body" >"$new"
done
if [ "$idle_denials" -gt 0 ] && [ "$allow_idle" = no ]; then
    fail 1 "nothing is published. Where a denial that selects nothing is meant: --allow-idle"
fi

move "$file" "$store"
echo "$store: made, its root is $root"
if [ -n "$new_namespaces" ]; then
    move "$new_namespaces" "$namespaces"
    echo "$namespaces: made, for tools/read.sh --namespaces"
elif [ -f "$namespaces" ]; then
    rm -f -- "$namespaces" || exit "$usage_status"
    echo "$namespaces: removed, it was of an earlier edition"
fi
for at in "${!bodies[@]}"; do
    cmp -s "${new_bodies[at]}" "${bodies[at]}" || move "${new_bodies[at]}" "$(readlink -f -- "${bodies[at]}")"
    move "${new_licences[at]}" "${licences[at]}"
    echo "${licences[at]}: sealed"
done
