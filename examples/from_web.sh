#!/usr/bin/env bash
# Reads a file that is on a web server: examples/from_web.sh [FOLDERS]
#
# `acl` reads its store as a file, so any file system can bring the bytes. Here `nginx` serves a file on a port of this
# machine, `rclone mount` mounts it as a file, and `acl view` reads it. The script prints how many bytes the server
# sent. Then it changes a byte on the server, and nothing is shown. The file is that of a sample of FOLDERS folders; the
# default is 2000.
#
# It needs `acl` on the path, or its path in ACL, and Debian's nginx, rclone, fuse3 and python3. The machine must let a
# program mount a file system.
#
# Status 0: the views were right. 1: one was not. 2: the arguments are not as above, or a server didn't start. 69: a
# tool is missing. 77: this machine has no FUSE.
here=$(dirname -- "$(readlink -f -- "$0")")
. "$here/../tools/parts.sh" || exit 2
export PATH=$PATH:/usr/sbin

[ "$#" -le 1 ] && [[ ${1-2000} =~ ^[1-9][0-9]{0,4}$ ]] || fail "$usage_status" "usage: examples/from_web.sh [FOLDERS]"
folders=${1-2000}
need nginx "it is in Debian's package nginx"
need rclone "it is in Debian's package rclone"
need fusermount3 "it is in Debian's package fuse3"
need python3 "it is in Debian's package python3"
need_acl
[ -c /dev/fuse ] || fail "$no_fuse_status" "there is no FUSE on this machine: /dev/fuse is missing"
made=$(mktemp -d) || exit 2
server=
mounted=

stop() {
    [ -z "$mounted" ] || { fusermount3 -u -z "$made/mount" && wait "$mounted"; } 2>/dev/null
    [ -z "$server" ] || { kill "$server" && wait "$server"; } 2>/dev/null
    rm -rf --one-file-system -- "$made"
}
trap stop EXIT
trap 'exit 130' INT
trap 'exit 143' TERM
trap 'exit 129' HUP

# Repeats the command in the arguments until it succeeds, for at most ten seconds.
wait_for() {
    local tries=100
    until "$@" 2>/dev/null; do
        tries=$((tries - 1))
        [ "$tries" -gt 0 ] || return 1
        sleep 0.1
    done
}

answers() { exec 3<>"/dev/tcp/127.0.0.1/$port" && exec 3>&-; }

# Prints how many requests and bytes the server answered since its log had $1 lines.
sent() { tail -n "+$(($1 + 1))" "$made/log" | awk '{ sum += $1 } END { print NR " requests, " sum + 0 " bytes" }'; }

mkdir "$made/web" "$made/mount"
"$acl" sample "$folders" >"$made/lines" 2>/dev/null || exit
"$acl" encode "$here/keys" <"$made/lines" >"$made/web/hospital.acl" 2>"$made/root" || exit
printf '%s\n' "licence 1" "$(cat "$made/root")" "user Ana" "+ own //Folder[Act/RPhys=USER]/Admin" end >"$made/rules"
"$acl" seal "$here/keys" <"$made/rules" >"$made/licence" || exit
"$acl" preview "$made/rules" <"$made/lines" >"$made/wanted" || exit

port=$(python3 -c 'import socket; s = socket.socket(); s.bind(("127.0.0.1", 0)); print(s.getsockname()[1])')
cat >"$made/conf" <<END
daemon off;
master_process off;
pid $made/pid;
events {}
http {
    log_format sent '\$body_bytes_sent \$status "\$http_range" "\$request"';
    access_log $made/log sent;
    client_body_temp_path $made/body;
    proxy_temp_path $made/proxy;
    fastcgi_temp_path $made/fastcgi;
    uwsgi_temp_path $made/uwsgi;
    scgi_temp_path $made/scgi;
    server {
        listen 127.0.0.1:$port;
        root $made/web;
        autoindex on;
    }
}
END
nginx -c "$made/conf" -e "$made/errors" &
server=$!
wait_for answers || fail 2 "nginx didn't start: $(tail -n 1 "$made/errors")"
# `acl` goes back and forth between fragments and digests. By default `rclone` asks for the rest of the file at each
# jump.
rclone mount --config "" --read-only --vfs-cache-mode off --buffer-size 0 --vfs-read-chunk-size 64k --vfs-read-chunk-size-limit 64k \
    --http-url "http://127.0.0.1:$port" :http: "$made/mount" >"$made/mount.said" 2>&1 &
mounted=$!
if ! wait_for test -e "$made/mount/hospital.acl"; then
    cat "$made/mount.said" >&2
    fail "$no_fuse_status" "no file system could be mounted by FUSE on this machine"
fi

before=$(wc -l <"$made/log")
"$acl" view "$here/keys" "$made/mount/hospital.acl" <"$made/licence" >"$made/view" || fail 1 "the view was refused"
cmp -s "$made/view" "$made/wanted" || fail 1 "the view is not the one that the rules allow"
sleep 0.5
echo "The view of the file on the server has $(wc -l <"$made/view") lines, as it should. The first ones are:"
head -n 12 "$made/view"
echo "The file has $(wc -c <"$made/web/hospital.acl") bytes; the server sent, in $(sent "$before")."

# Change one bit of the byte that is a quarter of the way into the file.
python3 -c '
import sys
with open(sys.argv[1], "r+b") as file:
    file.seek(int(sys.argv[2]))
    byte = file.read(1)[0]
    file.seek(int(sys.argv[2]))
    file.write(bytes([byte ^ 1]))' "$made/web/hospital.acl" $(($(wc -c <"$made/web/hospital.acl") / 4)) || exit 2
"$acl" view "$here/keys" "$made/mount/hospital.acl" <"$made/licence" >"$made/view" 2>"$made/said"
status=$?
[ "$status" -eq 35 ] && [ ! -s "$made/view" ] || fail 1 "a changed file should end with 35 and no view, and not with $status"
echo "A byte of it was changed on the server, and nothing is shown:"
sed -e "s,$made/mount/,," -e 's/\(want\|made\)=\([0-9a-f]\{4\}\)[0-9a-f]*/\1=\2../g' "$made/said"
