package ipnetwork

import (
	"fmt"
	"math/rand"
	"net/netip"
	"strings"
	"testing"
)

// texts returns a column of random texts, some of which name no address, and each text by itself.
func texts(random *rand.Rand, count int) (whole []byte, offsets []uint32, each []string) {
	offsets = append(offsets, 0)
	for row := 0; row < count; row++ {
		a, _ := pair(random, row%2 == 0)
		text := a.String()
		if row%5 == 0 {
			text = text[:random.Intn(len(text)+1)]
		}
		each, whole = append(each, text), append(whole, text...)
		offsets = append(offsets, uint32(len(whole)))
	}
	return whole, offsets, each
}

func TestColumns(t *testing.T) {
	random := rand.New(rand.NewSource(31))
	whole, offsets, each := texts(random, 1000)
	addresses, err := ParseAddrColumn(whole, offsets)
	equal(t, "read", err, nil)
	networks, faults, err := ParseColumn(whole, offsets)
	equal(t, "read", err, nil)
	for row, text := range each {
		one, err := netip.ParseAddr(text)
		equal(t, text, addresses[row], one)
		equal(t, text, faults[row] == 0, err == nil)
		if err == nil {
			equal(t, text, networks[row].Prefix(), netip.PrefixFrom(one, one.BitLen()))
		} else {
			equal(t, text, networks[row], Network{})
		}
	}
	for _, text := range []string{"0.0.0.0/1", "128.0.0.0/2", "::/1", "8000::/2"} {
		network := MustParse(text)
		for row, answer := range network.ContainsEach(addresses) {
			equal(t, text, answer, network.Contains(addresses[row]))
		}
	}
	for _, wrong := range [][]uint32{{2, 1}, {0, uint32(len(whole)) + 1}} {
		_, _, err = ParseColumn(whole, wrong)
		equal(t, "offsets", err, NoOffsets)
	}
	none, err := ParseAddrColumn(nil, nil)
	equal(t, "no offsets", fmt.Sprint(none, err), "[] <nil>")
	answers := make([]byte, 1)
	equal(t, "no room", MustParse("::/0").ContainsColumn(make([]byte, 32), answers), NoRoom)
	equal(t, "a part of an address", MustParse("::/0").ContainsColumn(make([]byte, 17), answers), NoFamily)
}

func TestPrintColumn(t *testing.T) {
	for _, each := range [][]string{{}, {"10.1.9.32/16", "0.0.0.0/0"}, {"2001:db8::1/32", "::/0", "::ffff:1.2.3.4/128"}, {"::/0", "0.0.0.0/0", "10.1.9.32/16"}} {
		var networks []Network
		for _, text := range each {
			networks = append(networks, MustParse(text))
		}
		texts, offsets, err := PrintColumn(networks)
		equal(t, "printed", err, nil)
		equal(t, "printed", len(offsets), len(each)+1)
		for row, text := range each {
			equal(t, text, string(texts[offsets[row]:offsets[row+1]]), text)
		}
		again, _, err := ParseColumn(texts, offsets)
		equal(t, "read", fmt.Sprint(again, err), fmt.Sprint(networks, nil))
	}
	for _, wrong := range [][]Network{{MustParse("::/0"), {}}, {{}}} {
		_, _, err := PrintColumn(wrong)
		equal(t, "families", err, NoFamily)
	}
	addresses := []netip.Addr{netip.MustParseAddr("10.1.9.32"), netip.MustParseAddr("::1"), netip.MustParseAddr("2001:db8::1:0:0:1")}
	whole, offsets, err := PrintAddrColumn(addresses)
	equal(t, "printed", fmt.Sprint(string(whole), offsets, err), "10.1.9.32::12001:db8::1:0:0:1[0 9 12 29] <nil>")
	none, offsets, err := PrintAddrColumn(nil)
	equal(t, "printed", fmt.Sprint(none, offsets, err), "[] [0] <nil>")
	for _, wrong := range []netip.Addr{{}, netip.MustParseAddr("fe80::1%eth0")} {
		_, _, err := PrintAddrColumn([]netip.Addr{wrong})
		equal(t, "no address", err, NoFamily)
	}
}

// Texts of each kind, many times, so that they need more than one portion, with a long one among them.
func manyTexts() (texts []string) {
	zeros := strings.Repeat("0", 5000)
	for row := 0; row < 3000; row++ {
		switch row % 500 {
		case 7:
			texts = append(texts, "10.0.0.0/"+zeros+"8")
		case 8:
			texts = append(texts, zeros+"::/8")
		case 9:
			texts = append(texts, "")
		case 10:
			texts = append(texts, "10.0.0.0/33")
		default:
			texts = append(texts, fmt.Sprintf("2001:db8:%x::/48", row), fmt.Sprintf("10.%d.0.9/16", row%256))
		}
	}
	return texts
}

func TestEach(t *testing.T) {
	texts := manyTexts()
	for _, some := range [][]string{texts, texts[:14], nil} {
		networks, faults := ParseEach(some)
		equal(t, "rows", fmt.Sprint(len(networks), len(faults)), fmt.Sprint(len(some), len(some)))
		for row, text := range some {
			one, err := Parse(text)
			equal(t, text, networks[row], one)
			equal(t, text, faults[row] == 0, err == nil)
			if err != nil {
				equal(t, text, err, faults[row])
			}
		}
	}
	equal(t, "a long text", MustParse(texts[14]).String(), "10.0.0.0/8")
}

func TestReadColumn(t *testing.T) {
	texts, offsets := []byte("10.0.0.0/8::/::1/64"), []uint32{0, 10, 13, 19}
	networks, faults := make([]Network, 4), make([]byte, 4)
	for row := range networks {
		networks[row], faults[row] = MustParse("192.0.2.0/24"), 99
	}
	equal(t, "read", ReadColumn(texts, offsets, networks, faults), nil)
	equal(t, "networks", fmt.Sprint(networks), "[10.0.0.0/8  ::1/64 192.0.2.0/24]")
	equal(t, "faults", fmt.Sprint(faults), "[0 3 0 99]")
	equal(t, "no room", ReadColumn(texts, offsets, networks[:2], faults), NoRoom)
	equal(t, "no room", ReadColumn(texts, offsets, networks, faults[:2]), NoRoom)
	equal(t, "offsets", ReadColumn(texts[:18], offsets, networks, faults), NoOffsets)
	equal(t, "nothing", ReadColumn(nil, nil, nil, nil), nil)
}
