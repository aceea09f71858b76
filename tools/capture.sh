#!/usr/bin/env bash
# Captures what two routers say to each other, as examples/router.pcap was made: capture.sh OUT.pcap
#
# Both are gobgp's, on loopback addresses in a network of their own, so that nothing of it leaves this script. The one,
# 192.0.2.11, has a VRF with two routes; the other, 192.0.2.12, has the VRF too, and so asks for them. Then one of the routes
# goes, then the VRF with the other, and the first router closes the session. Needs Linux and to be root there, bash, iproute2,
# util-linux, tcpdump, and gobgp's programs `gobgpd` and `gobgp` (3.10 was used); takes half a minute.
set -eu

[ $# -eq 1 ] || { sed -n '2,8s/^# \{0,1\}//p' "$0"; exit 2; }

readonly ROUTER=192.0.2.11 OTHER=192.0.2.12
readonly TARGET=64512:8000001

# What a speaker is told of itself and of the other: its address, the other's, whether it waits to be called.
config() {
    cat <<END
[global.config]
  as = 64512
  router-id = "$1"
  local-address-list = ["$1"]
[[neighbors]]
  [neighbors.config]
    neighbor-address = "$2"
    peer-as = 64512
  [neighbors.transport.config]
    local-address = "$1"
    passive-mode = $3
  [[neighbors.afi-safis]]
    [neighbors.afi-safis.config]
      afi-safi-name = "l3vpn-ipv4-unicast"
  [[neighbors.afi-safis]]
    [neighbors.afi-safis.config]
      afi-safi-name = "rtc"
END
}

# Tells a speaker something, and gives it a second to say so.
router() { gobgp -u 127.0.0.1 -p 50051 "$@"; sleep 1; }
other() { gobgp -u 127.0.0.1 -p 50052 "$@"; sleep 1; }

# Two speakers, whose session is up when it returns.
speak() {
    config "$OTHER" "$ROUTER" true > "$1/other.toml"
    config "$ROUTER" "$OTHER" false > "$1/router.toml"
    gobgpd -f "$1/other.toml" --api-hosts 127.0.0.1:50052 --pprof-disable > "$1/other.log" 2>&1 &
    sleep 1
    gobgpd -f "$1/router.toml" --api-hosts 127.0.0.1:50051 --pprof-disable > "$1/router.log" 2>&1 &
    for _ in {1..60}; do
        if router neighbor 2> /dev/null | grep -q Establ; then return; fi
    done
    echo "no session within a minute" >&2
    return 1
}

# What the router is told, step by step.
play() {
    router vrf add red rd "$ROUTER:1" rt both "$TARGET"
    other vrf add red rd "$OTHER:1" rt both "$TARGET"
    router global rib add -a vpnv4 10.1.0.5/32 label 23 rd "$ROUTER:1" rt "$TARGET" nexthop "$ROUTER"
    router global rib add -a vpnv4 10.1.0.6/32 label 24 rd "$ROUTER:1" rt "$TARGET" nexthop "$ROUTER"
    router global rib del -a vpnv4 10.1.0.6/32 label 24 rd "$ROUTER:1"
    router vrf del red
    router neighbor "$OTHER" disable
}

# The session, with nothing else on the network, in a file.
capture() {
    FOLDER=$(mktemp -d)
    trap 'kill $(jobs -p) 2> /dev/null || true; wait; rm -r "$FOLDER"' EXIT
    hostname r1
    ip link set lo up
    ip address add "$ROUTER/32" dev lo
    ip address add "$OTHER/32" dev lo
    tcpdump -i lo -U -Z root -w "$1" 'tcp port 179' 2> /dev/null &
    sleep 1
    speak "$FOLDER"
    play
}

if [ "${INSIDE:-}" ]; then
    capture "$1"
else
    INSIDE=1 exec unshare --net --uts "$0" "$1"
fi
