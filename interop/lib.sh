# What the scripts share. A script is run with the number of legs as its only argument.
set -u
top=$(cd "$(dirname "${BASH_SOURCE[0]}")/.." && pwd)
program=${NBDMIRROR:-$top/crates/nbdmirror/out/nbdmirror}
ctl=$top/tools/nbdmirrorctl
legs=${1:-1}
room=$(mktemp -d)
size=$((8 << 20))
server=
# Debian's python3-libnbd belongs to Debian's python3.
PATH=/usr/bin:/bin:/usr/sbin:/sbin:$PATH

fail() {
    echo "  $*" >&2
    exit 1
}

# Ends with the status that says so where a command is not there.
need() {
    for tool in "$@"; do
        command -v "$tool" > /dev/null || { echo "  $tool is not installed" >&2; exit 77; }
    done
}

# Has two legs, where the script was run with one.
need_second_leg() {
    [ "$legs" -ge 2 ] || { echo '  needs a second leg' >&2; legs=2; }
}

# A port below those that the system hands out, so that no client takes it meanwhile.
free_port() {
    local port
    while :; do
        port=$((15000 + RANDOM % 17000))
        (exec 3<> "/dev/tcp/127.0.0.1/$port") 2> /dev/null || { echo "$port"; return; }
    done
}

# Makes $legs files of zeroes.
make_legs() {
    files=()
    for ((n = 0; n < legs; n++)); do
        truncate -s "$size" "$room/leg$n"
        files+=("$room/leg$n")
    done
}

# start OPTIONS..: starts the server on the legs and waits until it listens, without superblocks where no
# option says otherwise. $on is the address that it listens on, if not the loopback.
start() {
    case " $* " in *' --superblock '*) ;; *) set -- --superblock none "$@" ;; esac
    for _ in 1 2 3 4 5; do
        port=$(free_port)
        control=$(free_port)
        uri=nbd://127.0.0.1:$port/disk
        export NBDMIRROR_CONTROL=127.0.0.1:$control
        : > "$room/out"
        "$program" --listen "${on:-127.0.0.1}:$port" --control "${on:-127.0.0.1}:$control" "$@" "${files[@]}" \
            > "$room/out" 2> "$room/err" &
        server=$!
        until grep -q '^control on' "$room/out"; do
            kill -0 "$server" 2> /dev/null || break
            sleep 0.1
        done
        kill -0 "$server" 2> /dev/null && return 0
        # another program has taken the port meanwhile
        grep -q 'cannot listen' "$room/err" || break
    done
    fail "the server does not start: $(cat "$room/err")"
}

# Waits until no leg is being copied.
wait_for_copy() {
    "$ctl" watch --interval 0.2 > /dev/null || fail "the copy does not end"
}

# Takes leg 1 out in the midst of a client's work, where there is a leg 1.
lose_leg() {
    [ "$legs" -lt 2 ] || "$ctl" fail 1 > "$room/told" || fail "leg 1 does not go out: $(cat "$room/told")"
}

# Attaches leg 1 again, where there is one. It must lack something: a client has written meanwhile.
attach_leg() {
    [ "$legs" -ge 2 ] || return 0
    "$ctl" attach 1 > "$room/told" || fail "leg 1 is not attached: $(cat "$room/told")"
    grep -q '^leg 1 is being copied in ' "$room/told" ||
        fail "leg 1 has missed nothing: $(cat "$room/told")"
}

# Ends the server, which must end with status 0. No line of its log counts in blocks.
stop() {
    "$ctl" quit > /dev/null || fail "quit is not answered"
    wait "$server"
    local status=$?
    server=
    [ "$status" = 0 ] || fail "the server ends with status $status: $(cat "$room/err")"
    grep -w blocks "$room/err" && fail 'a line of the log counts in blocks'
    return 0
}

# All legs must hold the same bytes.
legs_equal() {
    for ((n = 1; n < legs; n++)); do
        cmp "$room/leg0" "$room/leg$n" || fail "leg $n differs from leg 0"
    done
}

unmount() {
    fusermount3 -u "$1" 2> /dev/null || fusermount -u "$1" 2> /dev/null || umount "$1"
}

clean_up() {
    mountpoint -q "$room/mount" && unmount "$room/mount"
    [ -n "$server" ] && kill -9 "$server" 2> /dev/null
    cd /
    rm -rf "$room"
}
trap clean_up EXIT
# Some tools leave files where they run.
cd "$room" || exit 1
