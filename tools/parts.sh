# What the scripts of this folder share with each other, and with examples/many.sh and examples/from_web.sh. It is
# sourced, not run.
set -u
# Names and lines are bytes: `sort` and ranges of letters must not depend on the machine's locale.
export LC_ALL=C

# The program: the one that ACL names, or else `acl` on the path.
acl=${ACL:-acl}

# The scripts' own exit statuses. Those from 1 to 41 come from `acl` and from examples/xml.sh, which also has 65.
readonly usage_status=2 bad_namespaces_status=65 missing_status=69 no_fuse_status=77

# Ends the script with the status $1 and the message $2.
fail() {
    echo "${0##*/}: $2" >&2
    exit "$1"
}

# Ends the script if the command $1 is missing. $2 says where to get it.
need() {
    command -v -- "$1" >/dev/null || fail "$missing_status" "$1 is missing: $2"
}

# Ends the script if there is no `acl`, and sets `acl` and ACL to its full path.
need_acl() {
    need "$acl" "README.md says how to build it. It is looked for on the path, or at the path in ACL"
    # With a full path, scripts that change their folder find it too.
    acl=$(command -v -- "$acl")
    [[ $acl == /* ]] || acl=$PWD/$acl
    export ACL=$acl
}

# Warns if any user of the machine can read or change the keys in the file $1.
warn_of_keys() {
    local mode
    mode=$(stat -L -c %a -- "$1" 2>/dev/null) || return 0
    [ "$((8#$mode & 8#007))" -eq 0 ] ||
        echo "${0##*/}: warning: $1: any user of this machine can read or change these keys: chmod 600" >&2
}

# The file name $1 in a form that no command takes for an option.
plain_name() {
    case $1 in
        -*) echo "./$1" ;;
        *) echo "$1" ;;
    esac
}

# The number $1 with the noun $2: "1 line", "2 lines".
count() {
    if [ "$1" -eq 1 ]; then echo "1 $2"; else echo "$1 $2s"; fi
}
