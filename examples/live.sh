#!/usr/bin/env bash
# Two gateways and their controller on this machine: keys a tunnel between them by hand, sends a packet through it each way, rekeys
# it, and sends again. Every process that it starts is ended.
set -eu
top=$(cd "$(dirname "$0")/.." && pwd)
turns=4294967295
logs=$(mktemp -d)

finish() {
  trap - EXIT
  jobs -p | xargs -r kill 2>/dev/null || true
  wait 2>/dev/null || true
  rm -rf "$logs"
}
trap finish EXIT

say() { printf '\n== %s\n' "$*"; }

# The program is built before anything is started, so that nothing waits for it.
"$top/ikeless" replay < "$top/examples/rekey.script" > /dev/null

start() {
  local name=$1
  shift
  printf '$ ikeless %s &\n' "$*"
  "$top/ikeless" "$@" 2> "$logs/$name" &
}

# A command to the controller, with its answer.
tell() {
  printf '$ ikeless client --port 42001 --turns 40 %s\n' "$*"
  "$top/ikeless" client --port 42001 --turns 40 "$@"
}

# A key for AES-128 with its salt, as hex digits.
key() { od -An -N20 -tx1 /dev/urandom | tr -d ' \n'; }

# Waits until the controller listens.
wait_for_controller() {
  for _ in $(seq 100); do
    if (: <> /dev/tcp/127.0.0.1/42001) 2>/dev/null; then return; fi
    sleep 0.1
  done
}

# through INSIDE FROM TO SOURCE DESTINATION: sends a packet to a gateway from its inside until it is given inside the other gateway; it
# is dropped as long as there is no half that seals it.
through() {
  python3 - "$@" <<'PACKET'
import socket, struct, sys

inside, from_port, to_port, source, destination = int(sys.argv[1]), int(sys.argv[2]), int(sys.argv[3]), sys.argv[4], sys.argv[5]
text = b"hello through the tunnel"
udp = struct.pack(">HHHH", 5000, 5001, 8 + len(text), 0) + text
head = struct.pack(">BBHHHBBH4s4s", 0x45, 0, 20 + len(udp), 1, 0, 64, 17, 0, socket.inet_aton(source), socket.inet_aton(destination))
total = sum(struct.unpack(">10H", head))
total = (total & 0xFFFF) + (total >> 16)
total = (total & 0xFFFF) + (total >> 16)
packet = head[:10] + struct.pack(">H", ~total & 0xFFFF) + head[12:] + udp
sender, receiver = (socket.socket(socket.AF_INET, socket.SOCK_DGRAM) for _ in range(2))
sender.bind(("127.0.0.1", from_port))
receiver.bind(("127.0.0.1", to_port))
receiver.settimeout(0.5)
given = None
for _ in range(20):
    sender.sendto(packet, ("127.0.0.1", inside))
    try:
        given = receiver.recv(65535)
        break
    except TimeoutError:
        pass
print(f"{source} -> {destination}: {given[28:].decode()}" if given == packet else "the packet didn't come through")
sys.exit(given != packet)
PACKET
}

say 'two gateways and a controller'
start west gateway --address 192.0.2.1 --seq-last 4294967295 --inside 42101 --inside-to 42102 --outside 42103 --outside-to 42203 --control 42104 --notice 42105 --turns $turns
start east gateway --address 198.51.100.1 --seq-last 4294967295 --inside 42201 --inside-to 42202 --outside 42203 --outside-to 42103 --control 42204 --notice 42205 --turns $turns
start controller controller --commands 42001 --turns $turns west=192.0.2.1=42104=42105 east=198.51.100.1=42204=42205
wait_for_controller

say 'what is protected, and keys for both directions'
tell policy west out,out,10,protect,10.1.0.0/16,10.2.0.0/16,any,any,any in,in,10,protect,10.1.0.0/16,10.2.0.0/16,any,any,any
tell policy east out,out,10,protect,10.2.0.0/16,10.1.0.0/16,any,any,any in,in,10,protect,10.2.0.0/16,10.1.0.0/16,any,any,any
tell keys "$(key)"
tell keys "$(key)"
tell tunnel 10 now west east 10.1.0.0/16 10.2.0.0/16 64 0/0/0/0 3600/0/0/0

say 'a packet each way'
through 42101 42102 42202 10.1.0.1 10.2.0.1
through 42201 42202 42102 10.2.0.1 10.1.0.1

say 'new keys, and a packet each way under them'
tell keys "$(key)"
tell keys "$(key)"
tell rekey 10
sleep 1
through 42101 42102 42202 10.1.0.1 10.2.0.1
through 42201 42202 42102 10.2.0.1 10.1.0.1

say 'the halves that west has'
# A session is two connections, that for requests first. It takes the place of the controller's, which comes back and so ends this one.
exec 3<> /dev/tcp/127.0.0.1/42104
printf 'GET /restconf/data/ietf-i2nsf-ikeless:ipsec-ikeless/sad HTTP/1.1\r\nHost: west\r\n\r\n' >&3
exec 4<> /dev/tcp/127.0.0.1/42105
cat <&3
exec 3>&- 4>&-
echo
