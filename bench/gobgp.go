// Reads the hexadecimal digits of BGP messages from standard input, decodes each message by gobgp's library, and prints a line
// of each route that an UPDATE announces or withdraws: what bench/peers.py measures beside `decode`.
package main

import (
	"bufio"
	"encoding/binary"
	"encoding/hex"
	"fmt"
	"io"
	"os"
	"strings"

	"github.com/osrg/gobgp/pkg/packet/bgp"
)

func tell(out *bufio.Writer, update *bgp.BGPUpdate) {
	hop, targets := "", "-"
	for _, attribute := range update.PathAttributes {
		switch value := attribute.(type) {
		case *bgp.PathAttributeMpReachNLRI:
			hop = value.Nexthop.String()
		case *bgp.PathAttributeExtendedCommunities:
			var texts []string
			for _, community := range value.Value {
				texts = append(texts, community.String())
			}
			targets = strings.Join(texts, ",")
		}
	}
	for _, attribute := range update.PathAttributes {
		switch value := attribute.(type) {
		case *bgp.PathAttributeMpReachNLRI:
			for _, route := range value.Value {
				fmt.Fprintf(out, "put %s next-hop %s targets %s\n", route, hop, targets)
			}
		case *bgp.PathAttributeMpUnreachNLRI:
			for _, route := range value.Value {
				fmt.Fprintf(out, "drop %s\n", route)
			}
		}
	}
}

func fail(err error) {
	if err != nil {
		fmt.Fprintln(os.Stderr, err)
		os.Exit(1)
	}
}

func main() {
	text, err := io.ReadAll(os.Stdin)
	fail(err)
	octets, err := hex.DecodeString(strings.Join(strings.Fields(string(text)), ""))
	fail(err)
	out := bufio.NewWriterSize(os.Stdout, 1<<16)
	for len(octets) >= 19 {
		size := int(binary.BigEndian.Uint16(octets[16:]))
		message, err := bgp.ParseBGPMessage(octets[:size])
		fail(err)
		if update, is := message.Body.(*bgp.BGPUpdate); is {
			fmt.Fprintln(out, "update")
			tell(out, update)
		}
		octets = octets[size:]
	}
	fail(out.Flush())
}
