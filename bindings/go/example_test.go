package ipnetwork_test

import (
	"encoding/json"
	"errors"
	"fmt"
	"net/netip"

	"fosibegan.example/ipnetwork"
)

func ExampleParse() {
	network, err := ipnetwork.Parse("10.1.9.32/255.255.0.0")
	fmt.Println(network, err)
	fmt.Println(network.Network(), network.Broadcast(), network.Contains(netip.MustParseAddr("10.1.255.255")))
	_, err = ipnetwork.Parse("10/8")
	fmt.Println(err, errors.Is(err, ipnetwork.Address))
	// Output:
	// 10.1.9.32/16 <nil>
	// 10.1.0.0 10.1.255.255 true
	// "10/8": no address true
}

func ExampleBuild() {
	fmt.Printf("ipnetwork %s (%s)\n", ipnetwork.Version(), ipnetwork.Build()) // ipnetwork 0.2.0 (proved)
}

func ExampleNetwork_MarshalText() {
	text, _ := json.Marshal([]ipnetwork.Network{ipnetwork.MustParse("2001:DB8::/32"), {}})
	fmt.Println(string(text))
	// Output: ["2001:db8::/32",""]
}

func ExampleSet() {
	allowed, _ := ipnetwork.NewSet([]ipnetwork.Network{ipnetwork.MustParse("10.0.0.0/9"), ipnetwork.MustParse("10.128.0.0/9")})
	denied, _ := ipnetwork.NewSet([]ipnetwork.Network{ipnetwork.MustParse("10.1.0.0/16")})
	left, _ := allowed.Difference(denied)
	fmt.Println(allowed.Networks(), left.Networks()[:2], left.Contains(netip.MustParseAddr("10.1.9.32")))
	// Output: [10.0.0.0/8] [10.0.0.0/16 10.2.0.0/15] false
}

// A peer as a socket for both families reports it, and a list of denied networks.
func ExampleSet_Mapped() {
	denied, _ := ipnetwork.NewSet([]ipnetwork.Network{ipnetwork.MustParse("10.0.0.0/8")})
	peer := netip.MustParseAddrPort("[::ffff:10.1.9.32]:443").Addr()
	fmt.Println(denied.Contains(peer), denied.Mapped().Contains(peer))
	// Output: false true
}

func ExampleSet_Covers() {
	own, _ := ipnetwork.NewSet([]ipnetwork.Network{ipnetwork.MustParse("10.0.0.0/9"), ipnetwork.MustParse("10.128.0.0/9")})
	fmt.Println(own.Covers(ipnetwork.MustParse("10.0.0.0/8")), own.Covers(ipnetwork.MustParse("10.0.0.0/7")))
	// Output: true false
}

func ExampleSet_Complement() {
	set, _ := ipnetwork.NewSet([]ipnetwork.Network{ipnetwork.MustParse("128.0.0.0/1"), ipnetwork.MustParse("::/1")})
	rest, _ := set.Complement()
	fmt.Println(rest.Networks(), rest.IsEmpty(), rest.Equal(set))
	// Output: [0.0.0.0/1 8000::/1] false false
}

func ExampleSet_Ranges() {
	set, _ := ipnetwork.NewSet([]ipnetwork.Network{ipnetwork.MustParse("10.0.0.0/31"), ipnetwork.MustParse("10.0.0.2")})
	fmt.Println(set.Ranges())
	// Output: [{10.0.0.0 10.0.0.2}]
}

func ExampleSet_All() {
	set, _ := ipnetwork.NewSet([]ipnetwork.Network{ipnetwork.MustParse("::/0"), ipnetwork.MustParse("10.0.0.0/8")})
	set.All()(func(network ipnetwork.Network) bool {
		fmt.Println(network)
		return true
	})
	// Output:
	// 10.0.0.0/8
	// ::/0
}

func ExampleMap() {
	zones, _ := ipnetwork.NewMap([]ipnetwork.Entry[string]{
		{ipnetwork.MustParse("10.0.0.0/8"), "inside"},
		{ipnetwork.MustParse("10.1.0.0/16"), "guests"},
	})
	fmt.Println(zones.Find(netip.MustParseAddr("10.1.9.32")))
	// Output: 10.1.0.0/16 guests true
}

// A column of texts of any driver of database/sql: rows.Scan(&network) calls Scan.
func ExampleNetwork_Scan() {
	var network ipnetwork.Network
	fmt.Println(network.Scan("10.1.9.32/16"), network)
	fmt.Println(network.Scan("10/8"), network)
	// Output:
	// <nil> 10.1.9.32/16
	// "10/8": no address 10.1.9.32/16
}

func ExampleTable() {
	table, _ := ipnetwork.NewTable([]ipnetwork.Network{ipnetwork.MustParse("10.0.0.0/8"), ipnetwork.MustParse("10.1.0.0/16")})
	fmt.Println(table.Find(netip.MustParseAddr("10.1.9.32")), table.Find(netip.MustParseAddr("10.2.0.1")))
	fmt.Println(table.FindEach([]netip.Addr{netip.MustParseAddr("10.1.0.1"), netip.MustParseAddr("::1")}))
	// Output:
	// 1 0
	// [1 -1]
}

func ExampleReadColumn() {
	networks, faults := make([]ipnetwork.Network, 2), make([]byte, 2)
	err := ipnetwork.ReadColumn([]byte("10.0.0.0/8no"), []uint32{0, 10, 12}, networks, faults)
	fmt.Println(networks[0], faults, err)
	// Output: 10.0.0.0/8 [0 2] <nil>
}
