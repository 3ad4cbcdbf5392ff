package ipnetwork

import (
	"encoding/json"
	"errors"
	"fmt"
	"math/big"
	"math/rand"
	"net/netip"
	"os"
	"regexp"
	"strconv"
	"testing"
)

// rows is the number of random texts and networks that are compared with net/netip: IPNETWORK_ROWS, or ten thousand.
func rows() int {
	if count, err := strconv.Atoi(os.Getenv("IPNETWORK_ROWS")); err == nil {
		return count
	}
	return 10000
}

// equal compares two values, or the cause of an error with a Fault.
func equal(t *testing.T, what string, own, wanted any) {
	t.Helper()
	err, isError := own.(error)
	fault, isFault := wanted.(Fault)
	if own != wanted && !(isError && isFault && errors.Is(err, fault)) {
		t.Fatalf("%s: here %v, wanted %v", what, own, wanted)
	}
}

func TestRows(t *testing.T) {
	network := MustParse("10.1.9.32/16")
	equal(t, "text", network.String(), "10.1.9.32/16")
	equal(t, "address", network.Addr(), netip.MustParseAddr("10.1.9.32"))
	equal(t, "prefix length", network.Bits(), 16)
	equal(t, "least", network.Network(), netip.MustParseAddr("10.1.0.0"))
	equal(t, "greatest", network.Broadcast(), netip.MustParseAddr("10.1.255.255"))
	equal(t, "mask", network.Mask(), netip.MustParseAddr("255.255.0.0"))
	equal(t, "size", network.Size().Int64(), int64(65536))
	equal(t, "of a mask", MustParse("192.0.2.0/255.255.255.0"), MustParse("192.0.2.0/24"))
	equal(t, "mapped", MustParse("::ffff:1.2.3.4").String(), "::ffff:1.2.3.4/128")
	equal(t, "all", MustParse("::/0").Size().String(), new(big.Int).Lsh(big.NewInt(1), 128).String())
	member, err := network.Nth(big.NewInt(257))
	equal(t, "member", fmt.Sprint(member, err), "10.1.1.1 <nil>")
	for _, n := range []*big.Int{big.NewInt(-1), big.NewInt(65536), nil} {
		_, err = network.Nth(n)
		equal(t, "no member", err, NoMember)
		_, err = network.SubnetAt(32, n)
		equal(t, "no block", err, NoMember)
	}
	_, err = network.Nth(new(big.Int).Lsh(big.NewInt(1), 32))
	equal(t, "no member past 32 bits", err, NoMember)
	last, err := MustParse("::/0").Nth(new(big.Int).Sub(new(big.Int).Lsh(big.NewInt(1), 128), big.NewInt(1)))
	equal(t, "last", fmt.Sprint(last, err), "ffff:ffff:ffff:ffff:ffff:ffff:ffff:ffff <nil>")
	for text, cause := range map[string]Fault{"": Address, "10/8": Address, "/8": Address, "fe80::1%eth0/64": Address,
		"1.2.3.4\x00": Address, "x/y/z": Format, "10.0.0.0/8/8": Format, "10.0.0.0/33": Prefix, "10.0.0.0/": Prefix,
		"::1/129": Prefix, "::1/255.0.0.0": Prefix, "10.0.0.0/ffff::": Prefix} {
		_, err := Parse(text)
		equal(t, text, err, cause)
	}
	address, err := ParseAddr("2001:DB8::1")
	equal(t, "an address", fmt.Sprint(address, err), "2001:db8::1 <nil>")
	_, err = ParseAddr("fe80::1%eth0")
	equal(t, "a zone", err, Address)
	length, err := PrefixOfMask(netip.MustParseAddr("255.192.0.0"))
	equal(t, "of a mask", fmt.Sprint(length, err), "10 <nil>")
	_, err = PrefixOfMask(netip.MustParseAddr("0.0.255.255"))
	equal(t, "no mask", err, NoMask)
	for _, prefix := range []int{-1, 33, 256} {
		_, err = New(netip.MustParseAddr("10.0.0.1"), prefix)
		equal(t, "no prefix length", err, Prefix)
	}
	zoned := netip.MustParseAddr("fe80::1%eth0")
	_, err = New(zoned, 64)
	equal(t, "a zone", err, NoFamily)
	equal(t, "a zone", MustParse("fe80::/10").Contains(zoned), false)
}

// The library says which build it is; if the environment has IPNETWORK_BUILD, that is the text it should give.
func TestBuild(t *testing.T) {
	if !regexp.MustCompile(`^\d+\.\d+\.\d+(-dev)?$`).MatchString(Version()) {
		t.Fatalf("the version is %q", Version())
	}
	got := fmt.Sprintf("%s (%s)", Version(), Build())
	if build := Build(); build != "proved" && build != "plain Rust, made of proved sources" {
		t.Fatalf("the build is %q", build)
	}
	if wanted, is := os.LookupEnv("IPNETWORK_BUILD"); is {
		equal(t, "build", got, wanted)
	}
}

func TestZero(t *testing.T) {
	var none Network
	equal(t, "text", none.String(), "")
	equal(t, "member", none.Contains(netip.MustParseAddr("::")), false)
	equal(t, "least", none.Network(), netip.Addr{})
	equal(t, "size", none.Size().Sign(), 0)
	_, err := none.Nth(big.NewInt(0))
	equal(t, "member number 0", err, NoFamily)
	equal(t, "subnet", none.IsSubnetOf(MustParse("::/0")) || none.Overlaps(none), false)
	equal(t, "no address", MustParse("::/0").Contains(netip.Addr{}), false)
	equal(t, "prefix", none.Prefix().IsValid(), false)
	_, err = NewSet([]Network{none})
	equal(t, "a set of it", err, NoFamily)
	var set Set
	equal(t, "the empty set", set.Contains(netip.MustParseAddr("::1")), false)
	equal(t, "a column", none.ContainsColumn(nil, nil), NoFamily)
	equal(t, "a column of none", MustParse("::/0").ContainsColumn(nil, nil), nil)
}

func TestJSON(t *testing.T) {
	text, err := json.Marshal(map[string]Network{"net": MustParse("10.1.9.32/255.255.0.0")})
	equal(t, "written", fmt.Sprintf("%s %v", text, err), `{"net":"10.1.9.32/16"} <nil>`)
	var read map[string]Network
	equal(t, "read", json.Unmarshal(text, &read), nil)
	equal(t, "read", read["net"], MustParse("10.1.9.32/16"))
	equal(t, "refused", json.Unmarshal([]byte(`{"net":"10.1"}`), &read) != nil, true)
}

// The zero Network in JSON, as a value and as a key, compared with the zero netip.Prefix.
func TestZeroJSON(t *testing.T) {
	text, err := json.Marshal(map[Network][]Network{{}: {{}, MustParse("::/0")}})
	peer, _ := json.Marshal(map[netip.Prefix][]netip.Prefix{{}: {{}, netip.MustParsePrefix("::/0")}})
	equal(t, "written", fmt.Sprintf("%s %v", text, err), fmt.Sprintf("%s %v", peer, nil))
	equal(t, "written", string(text), `{"":["","::/0"]}`)
	read := map[Network][]Network{}
	equal(t, "read", json.Unmarshal(text, &read), nil)
	equal(t, "read", fmt.Sprint(len(read), read[Network{}]), fmt.Sprint(1, []Network{{}, MustParse("::/0")}))
	network := MustParse("10.0.0.0/8")
	equal(t, "read over another", fmt.Sprint(network.UnmarshalText(nil), network == Network{}), "<nil> true")
	network = MustParse("10.0.0.0/8")
	equal(t, "refused", network.UnmarshalText([]byte("10/8")), Address)
	equal(t, "left as it was", network, MustParse("10.0.0.0/8"))
	equal(t, "appended", string(Network{}.AppendTo(network.AppendTo([]byte("in ")))), "in 10.0.0.0/8")
}

func number(random *rand.Rand) (octets [16]byte) {
	kind := random.Intn(4)
	for place := range octets {
		octets[place] = byte(random.Intn(256))
		if kind == 0 {
			octets[place] &= byte(random.Intn(256)) & byte(random.Intn(256))
		} else if kind == 1 {
			octets[place] |= byte(random.Intn(256)) | byte(random.Intn(256))
		}
	}
	return octets
}

// pair is an address of a family and one that shares about its first bits with it.
func pair(random *rand.Rand, four bool) (netip.Addr, netip.Addr) {
	one := number(random)
	other := one
	at := random.Intn(128)
	if four {
		at = random.Intn(32)
	}
	other[at/8] ^= byte(random.Intn(256)) >> (at % 8)
	if four {
		return netip.AddrFrom4(*(*[4]byte)(one[:4])), netip.AddrFrom4(*(*[4]byte)(other[:4]))
	}
	return netip.AddrFrom16(one), netip.AddrFrom16(other)
}

func TestAgainstNetip(t *testing.T) {
	random := rand.New(rand.NewSource(30))
	var seen [2]int
	for row := 0; row < rows(); row++ {
		four := row%2 == 0
		a, b := pair(random, four)
		width := a.BitLen()
		p, q := netip.PrefixFrom(a, random.Intn(width+1)), netip.PrefixFrom(b, random.Intn(width+1))
		one, err := Parse(p.String())
		equal(t, p.String(), err, nil)
		made, err := FromPrefix(p)
		equal(t, p.String(), fmt.Sprint(made == one, err), "true <nil>")
		two, _ := New(b, q.Bits())
		equal(t, "prefix", one.Prefix(), p)
		equal(t, "text", one.String(), p.String())
		inside := one.Contains(b)
		equal(t, fmt.Sprint(p, " contains ", b), inside, p.Contains(b))
		if inside {
			seen[1]++
		} else {
			seen[0]++
		}
		equal(t, fmt.Sprint("least of ", p), one.Network(), p.Masked().Addr())
		equal(t, fmt.Sprint(p, " overlaps ", q), one.Overlaps(two), p.Overlaps(q))
		part := q.Bits() <= p.Bits() && q.Contains(a)
		equal(t, fmt.Sprint(p, " in ", q), one.IsSubnetOf(two), part)
		order := a.Compare(b)
		if order == 0 {
			order = p.Bits() - q.Bits()
		}
		equal(t, fmt.Sprint(p, " before ", q), sign(one.Compare(two)), sign(order))
		equal(t, "next of the greatest", p.Contains(one.Broadcast()) && !(one.Broadcast().Next().IsValid() && p.Contains(one.Broadcast().Next())), true)
		equal(t, "size", one.Size().Cmp(new(big.Int).Lsh(big.NewInt(1), uint(width-p.Bits()))), 0)
		last, err := one.Nth(new(big.Int).Sub(one.Size(), big.NewInt(1)))
		equal(t, "last", fmt.Sprint(last == one.Broadcast(), err), "true <nil>")
		length, err := PrefixOfMask(one.Mask())
		equal(t, "mask", fmt.Sprint(length, err), fmt.Sprint(p.Bits(), " <nil>"))
	}
	if seen[0]*20 < rows() || seen[1]*20 < rows() {
		t.Fatalf("too few of a kind: %v", seen)
	}
	fmt.Printf("Go: %d networks, no and yes of contains: %v\n", rows(), seen)
}

func sign(order int) int {
	if order < 0 {
		return -1
	} else if order > 0 {
		return 1
	}
	return 0
}

func TestSubnets(t *testing.T) {
	network, err := MustParse("10.0.0.9/8").SubnetAt(16, big.NewInt(255))
	equal(t, "subnet", fmt.Sprint(network, err), "10.255.0.0/16 <nil>")
	network, err = MustParse("2001:db8::/32").SubnetAt(48, big.NewInt(65535))
	equal(t, "subnet", fmt.Sprint(network, err), "2001:db8:ffff::/48 <nil>")
	for _, text := range []string{"10.0.0.0/8", "2001:db8::/32"} {
		_, err = MustParse(text).SubnetAt(32, new(big.Int).Lsh(big.NewInt(1), 100))
		equal(t, text, err, NoMember)
		_, err = MustParse(text).SubnetAt(7, big.NewInt(0))
		equal(t, text, err, Prefix)
	}
	_, err = Network{}.SubnetAt(8, big.NewInt(0))
	equal(t, "no network", err, NoFamily)
}
