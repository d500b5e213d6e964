# For scripts that try the built program: goes to examples/ and sets `program`; `made`, a folder that is gone at the end;
# and `wrong`, which is 0 until something is.
set -u
cd "$(dirname "${BASH_SOURCE[0]}")/../examples" || exit 2
program=../crates/acl_cli/out/acl_cli
[ -x "$program" ] || { echo "$program doesn't stand"; exit 2; }
made=$(mktemp -d) || exit 2
trap 'rm -rf "$made"' EXIT
wrong=0
