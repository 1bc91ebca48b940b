# shellcheck shell=bash disable=SC2034,SC2154
# Shell functions for tests that run the unit; to be sourced after lib.sh. Sets work, a folder for the test's files.

{ need_gcc && need_nettle && need_valgrind && find_archive; } || give_up
compile_unit || give_up
compile_changed pfcp-unit_sanitized "${sanitizers[@]}" "${unit_sources[@]}" "$archive_file" || give_up
plain=(target/c/pfcp-unit)
sanitized=(target/c/pfcp-unit_sanitized)
valgrinded=("${checked_by_valgrind[@]}" target/c/pfcp-unit)

work=$(mktemp -d)
unit_pid=
# shellcheck disable=SC2317 # called at the end
clean_up() {
    local pid
    for pid in $(jobs -p); do
        kill -KILL "$pid" 2>/dev/null
        wait "$pid" 2>/dev/null # which also keeps the shell from telling of it
    done
    rm -rf "$work"
}
trap clean_up EXIT

# within SECONDS COMMAND..: waits until a command succeeds
within() {
    local limit=$((SECONDS + $1))
    shift
    until "$@"; do
        [ "$SECONDS" -lt "$limit" ] || return 1
        sleep 0.05
    done
}

# is_gone PID, listens PORT: for within. A unit that was not waited for yet is gone too.
is_gone() { [ ! -e "/proc/$1" ] || grep -q '^State:[[:space:]]*Z' "/proc/$1/status" 2>/dev/null; }
listens() { grep -qi ":$(printf '%04X' "$1") " /proc/net/udp /proc/net/udp6; }
is_up() { is_gone "$unit_pid" || listens "$port"; }

# start_unit COMMAND..: starts a unit on a free port with these settings, its output in $out and its complaints in $err; sets unit_pid
# and port
settings=(--ipv4 192.0.2.1 --first-teid 4096 --pool 2 --first-address 10.45.0.1 --addresses 2)
out=$work/out
err=$work/err
start_unit() {
    local tries
    for ((tries = 0; tries < 20; tries++)); do
        port=$((20000 + RANDOM % 20000))
        listens "$port" && continue
        "$@" --port "$port" "${settings[@]}" >"$out" 2>"$err" &
        unit_pid=$!
        within 120 is_up # under valgrind, on a machine with other work, a start takes long
        is_gone "$unit_pid" || return 0
        wait "$unit_pid"
    done
    unit_pid=
    cat "$err"
    expect 'the unit starts' false
    return 1
}

# start_shared COMMAND..: the same for a unit that two control planes share, with a socket on 127.0.0.1 for peer 1 and one on 127.0.0.2 for
# peer 2, both of which are there then
shared=(--peer1 127.0.0.1:3:8 --peer2 127.0.0.2:3:5 --ipv4 192.0.2.1 --first-teid 4096 --pool 8 --first-address 10.45.0.1 --addresses 2)
start_shared() {
    local settings=("${shared[@]}")
    start_unit "$@" && within 5 grep -q ' serving PFCP' "$out"
}

# end_unit SIGNAL: ends the unit within seconds, or kills it; sets ended_with to its exit status
end_unit() {
    kill -"$1" "$unit_pid"
    within 20 is_gone "$unit_pid" || kill -KILL "$unit_pid"
    wait "$unit_pid"
    ended_with=$?
    unit_pid=
}

# to_unit [ADDRESS]: opens a socket to the unit as 3
to_unit() { exec 3<>"/dev/udp/${1:-127.0.0.1}/$port"; }

# numbered NUMBER OCTETS: a request or a reply, given in hexadecimal, with this sequence number
numbered() {
    local octets=${2// /} at=8
    [[ $octets == ?[13579BDF]* ]] && at=24 # after a SEID
    printf '%s%06X%s' "${octets:0:at}" "$1" "${octets:at + 6}"
}

# wants SEID NUMBER COUNT: an establishment of a session, up to 255, with so many PDRs that each want a TEID
wants() {
    local pdr
    printf '2132%04X0000000000000000%06X000039000D0200000000000000%02X7F000001' $((29 + 32 * $3)) "$2" "$1"
    for ((pdr = 1; pdr <= $3; pdr++)); do
        printf '0001001C00380002%04X001D0004000000640002000A00140001000015000105' "$pdr"
    done
}

# send_octets OCTETS: sends octets given in hexadecimal in one datagram
send_octets() {
    local octets=${1// /} i
    for ((i = 0; i < ${#octets}; i += 2)); do printf '%b' "\\x${octets:i:2}"; done >"$work/message"
    dd if="$work/message" bs=4096 count=1 status=none >&3
}

# exchange REQUEST [ADDRESS [SECONDS]]: sends a request and prints the reply in hexadecimal
exchange() {
    to_unit "${2:-127.0.0.1}" || return 1
    send_octets "$1"
    timeout "${3:-10}" dd bs=4096 count=1 status=none <&3 | od -An -v -tx1 | tr -d ' \n' | tr a-f A-F
    exec 3<&-
}

# no_answer MESSAGE [ADDRESS]: sends a message that gets no reply
no_answer() {
    to_unit "${2:-127.0.0.1}" || return 1
    send_octets "$1"
    exec 3<&-
}

# burst COUNT: sends so many times the same deletion of session 1, with the number 65536, while the unit stands still, then has it go on
burst() {
    local i
    kill -STOP "$unit_pid"
    to_unit
    for ((i = 0; i < $1; i++)); do
        printf '\x21\x36\x00\x0C\x00\x00\x00\x00\x00\x00\x00\x01\x01\x00\x00\x00' >&3
    done
    kill -CONT "$unit_pid"
    exec 3<&-
}

# cause REPLY: the node that answers an establishment, as eight digits, and the cause; nothing where there is no reply
cause() { [ ${#1} -ge 60 ] && printf '%s %d' "${1:42:8}" "0x${1:58:2}"; }

# said FILE: the lines of a unit's output or of its complaints, with TIME and PORT in the place of the time and the sender's port
said() {
    sed -E 's/^[0-9]{4}-[0-9]{2}-[0-9]{2}T[0-9]{2}:[0-9]{2}:[0-9]{2}\.[0-9]{3}Z /TIME /
        s/^TIME (127\.0\.0\.[0-9]+):[0-9]+ /TIME \1:PORT /' "$1"
}

anybody='TIME pfcp-unit: warning: no --peer is given, so requests from any address are answered, as those of one control plane'
# Session 2: an endpoint with a TEID for IPv4, a PDR that names it and has FAR 10, an FQ-CSID of an operator's node.
second='21 32 00 5F 00 00 00 00 00 00 00 00 00 00 02 00 00 39 00 0D 02 00 00 00 00 00 00 00 02 7F 00 00 01'
second+=' 00 01 00 24 00 38 00 02 00 03 00 1D 00 04 00 00 00 32 00 02 00 0A 00 14 00 01 01 00 83 00 01 01 00 6C 00 04 00 00 00 0A'
second+=' 00 7F 00 0A 00 83 00 01 01 00 15 00 01 05 00 41 00 08 21 3F F7 10 05 00 09 05'
# Set deletions: one that session 2 is of, with its CSID and another; one with another CSID; one without any. The reply to the first.
set_deletion='20 0E 00 12 00 00 0C 00 00 41 00 0A 22 3F F7 10 05 00 07 00 09 05'
other_set='20 0E 00 10 00 00 0C 00 00 41 00 08 21 3F F7 10 05 00 07 05'
empty_set='20 0E 00 0E 00 00 0C 00 00 41 00 06 00 00 00 00 00 05'
set_removed=200F001200000C00003C000500C00002010013000101
deletion='21 36 00 0C 00 00 00 00 00 00 00 01 00 00 01 00'
unknown=213700110000000000000000000001000013000141
heartbeat='20 01 00 0C 00 00 09 00 00 60 00 04 00 00 00 00'
establishment='21 32 00 3D 00 00 00 00 00 00 00 00 00 00 01 00 00 39 00 0D 02 00 00 00 00 00 00 00 01 7F 00 00 01'
establishment+=' 00 01 00 1C 00 38 00 02 00 01 00 1D 00 04 00 00 00 64 00 02 00 0A 00 14 00 01 00 00 15 00 01 05'
# Session 1 gets PDR 2 with an address, and the whole reply: the Created PDR has the ID and the address.
with_address='21 34 00 2C 00 00 00 00 00 00 00 01 00 00 10 00 00 01 00 1C 00 38 00 02 00 02 00 1D 00 04 00 00 00 01'
with_address+=' 00 02 00 0A 00 14 00 01 00 00 5D 00 01 10'
address_given=2135002400000000000000010000100000130001010008000F003800020002005D0005020A2D0001
established=2133004200000000000000010000010000 # up to the first element's type
established+=3C000500C0000201001300010100390 # Node ID, Cause
established+=00D020000000000000001C0000201000800130038000200010015000901000010 # F-SEID, Created PDR
established+=00C0000201
