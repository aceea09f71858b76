#!/usr/bin/env bash
# Captures sessions of routers that say what `overlay decode` has no form for, as tests/captures/ has them: captures.sh FOLDER
#
# Three sessions on loopback addresses, each in a network of its own, so that nothing of it leaves this script. `frr.pcap`: two
# FRR as Debian gives them, of which one tells 750 routes; both announce lengths above 4,096, and use them. `reload.pcap`: BIRD
# with three routes and FRR with one; each is asked for its routes anew (ROUTE-REFRESH). `paths.pcap`: the same with path
# identifiers, which BIRD is told to send. Needs Linux and to be root there, bash, iproute2, util-linux, tcpdump, FRR's bgpd (8.4
# was used) and BIRD (2.0.12); takes about a minute.
set -eu

[ $# -eq 1 ] && [ "$1" != --help ] || { sed -n '2,8s/^# \{0,1\}//p' "$0"; [ "${1:-}" = --help ] && exit 0; exit 2; }

readonly FIRST=192.0.2.31 SECOND=192.0.2.32
readonly BGPD=/usr/lib/frr/bgpd
readonly WAIT=90

# What FRR is told: its address, the other's, how many routes it has.
frr_config() {
    cat <<END
router bgp 64512
 bgp router-id $1
 neighbor $2 remote-as 64512
 neighbor $2 update-source $1
 neighbor $2 timers connect 1
 address-family ipv4 vpn
  neighbor $2 activate
$(for ((i = 0; i < $3; i++)); do echo "  network 10.8.$((i / 250)).$((i % 250))/32 rd $1:1 label $((18 + i % 8))"; done)
 exit-address-family
END
}

# What BIRD is told: its address, the other's, a line on path identifiers or none.
bird_config() {
    cat <<END
router id $1;
protocol device {}
vpn4 table known;
protocol static {
    vpn4 { table known; };
    route 64512:20 10.2.4.0/24 blackhole;
    route 64512:20 10.2.5.0/24 blackhole;
    route 64512:21 10.2.4.0/24 blackhole;
}
protocol bgp frr {
    local $1 as 64512;
    neighbor $2 as 64512;
    connect delay time 1;
    strict bind yes;
    vpn4 mpls { table known; import all; export all; next hop self; $3 };
}
END
}

# Starts FRR's bgpd with a configuration: its name, its address.
frr() {
    mkdir "$FOLDER/$1.run"
    "$BGPD" -Z -S -f "$FOLDER/$1" -i "$FOLDER/$1.pid" -l "$2" -A 127.0.0.1 -P 0 --vty_socket "$FOLDER/$1.run" \
        --log "file:$FOLDER/$1.log" > "$FOLDER/$1.out" 2>&1 &
}

# Asks a bgpd for something.
vty() { vtysh --vty_socket "$FOLDER/$1.run" -d bgpd -c "$2"; }

# Waits until a command says a word.
until_said() {
    for ((i = 0; i < WAIT; i++)); do
        if "${@:2}" 2> /dev/null | grep -q "$1"; then return; fi
        sleep 1
    done
    echo "no session within $WAIT seconds" >&2
    return 1
}

two_of_frr() {
    frr_config "$FIRST" "$SECOND" 750 > "$FOLDER/first"
    frr_config "$SECOND" "$FIRST" 1 > "$FOLDER/second"
    frr first "$FIRST"
    frr second "$SECOND"
    until_said '"pfxRcd":750' vty second 'show bgp ipv4 vpn summary json'
}

# BIRD with FRR: a line on path identifiers or none.
bird_with_frr() {
    bird_config "$FIRST" "$SECOND" "$1" > "$FOLDER/bird"
    frr_config "$SECOND" "$FIRST" 1 > "$FOLDER/second"
    bird -f -c "$FOLDER/bird" -s "$FOLDER/bird.ctl" -P "$FOLDER/bird.pid" > "$FOLDER/bird.out" 2>&1 &
    frr second "$SECOND"
    until_said Established birdc -s "$FOLDER/bird.ctl" show protocols
    sleep 3
    birdc -s "$FOLDER/bird.ctl" reload in frr > "$FOLDER/bird.said"
    sleep 3
    vty second "clear bgp ipv4 vpn $FIRST soft in" > "$FOLDER/second.said"
    sleep 3
}

# One session, with nothing else on its network, in a file.
capture() {
    FOLDER=$(mktemp -d)
    trap 'kill $(jobs -p) 2> /dev/null || true; wait; rm -r "$FOLDER"' EXIT
    hostname r1
    ip link set lo up
    ip address add "$FIRST/32" dev lo
    ip address add "$SECOND/32" dev lo
    tcpdump -i lo -U -Z root -w "$1" 'tcp port 179' 2> /dev/null &
    sleep 2
    case $2 in
        frr) two_of_frr ;;
        reload) bird_with_frr '' ;;
        paths) bird_with_frr 'add paths on;' ;;
    esac
    sleep 2
}

if [ "${INSIDE:-}" ]; then
    capture "$1/$INSIDE.pcap" "$INSIDE"
else
    for name in frr reload paths; do INSIDE=$name unshare --net --uts "$0" "$1"; done
fi
