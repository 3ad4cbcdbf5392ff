/* What the types take and refuse: tsc has to find nothing here. */
import {
  AddressColumn, AddressSet, IpAddress, IpNetwork, IpNetworkError, Ipv4Address, Ipv4Network,
  Ipv6Address, Ipv6Network, NetworkColumn, PrefixTable, aggregate, build, summarizeRange, version,
} from 'ipnetwork';

const text: string = `${version} (${build})`;

const network: Ipv4Network | Ipv6Network = IpNetwork.parse('10.1.9.32/16');
const four: Ipv4Network = Ipv4Network.parse('10.0.0.0/8');
const first: Ipv4Address = four.first;
const six: Ipv6Address = Ipv6Network.parse('::/0').last;
const size: bigint = network.size;
const numbers: [number, bigint] = [first.number, six.number];
const either: Ipv4Address | Ipv6Address = network.mask;
const nothing: Ipv6Network | undefined = Ipv6Network.tryParse('x');
for (const address of four) address.number.toFixed();
for (const subnet of four.subnets(16)) subnet.first.number.toFixed();
const peer: Ipv4Address | Ipv6Address = six.unmapped;
first.unmapped.number.toFixed();
const mapped = new AddressSet(['10.0.0.0/8'], { mapped: true }).mapped;
new PrefixTable([['10.0.0.0/8', 1]], { mapped: true }).lookup(peer);
AddressColumn.read(['::1'], { unmapped: mapped });
const relation: 'same' | 'inside' | 'around' | 'apart' = network.relationTo(four);
const sorted: IpNetwork[] = [network, four].sort(IpNetwork.compare);
const set = new AddressSet([network, '10.0.0.0/8']).union(
  new AddressSet(NetworkColumn.read(['::/0']))
);
const flags: Uint8Array = set.containsColumn(AddressColumn.read(['::1']));
const plainFlags: Uint8Array = set.containsColumn(['x'], { invalid: false });
const nullFlags: (0 | 1 | null)[] = set.containsColumn(['x'], { invalid: 'null' });
const range: IpAddress = [...set.complement().symmetricDifference(set).ranges()][0].first;
for (const block of set) block.prefix.toFixed();
const texts: (string | null)[] = AddressColumn.read(['x']).toJSON();
const table = new PrefixTable([['10.0.0.0/8', { name: 'x' }]]);
const rows: [string, { name: string }][] = table.toJSON();
const name: string | undefined = table.lookup('10.0.0.1')?.value.name;
const names: (string | undefined)[] = table.lookupColumn(['10.0.0.1']).map((value) => value?.name);
const nulls: ({ name: string } | null | undefined)[] = table.lookupColumn(['x'], { invalid: 'null' });
const keyed = new Map<string, number>([[String(four.block), 1]]);
const blocks: IpNetwork[] = [...aggregate(set.blocks()), ...summarizeRange('10.0.0.0', first)];
if (network.family === 4) network.last.number.toFixed();
try {
  new Ipv4Network('10.0.0.0', 33);
} catch (error) {
  if (error instanceof IpNetworkError && error.code === 'prefix') error.index?.toFixed();
}
export {
  range, texts, rows, either, numbers, size, nothing, relation, sorted, flags, plainFlags, nullFlags, name, names,
  nulls, keyed, blocks,
};

// @ts-expect-error a number is no text
IpNetwork.parse(10);
// @ts-expect-error networks do not change
network.prefix = 8;
// @ts-expect-error an IpNetwork is made by its parse
new IpNetwork();
// @ts-expect-error an IPv4 address is made of a number
new Ipv4Address(1n);
// @ts-expect-error a network is no list of networks
new AddressSet(four);
// @ts-expect-error a single text is no list
new AddressSet('10.0.0.0/8');
// @ts-expect-error an option is a boolean
new AddressSet([], { mapped: 1 });
// @ts-expect-error there is no such option
new PrefixTable([], { map: true });
// @ts-expect-error a column replaces, and does not ask
AddressColumn.read([], { mapped: true });
// @ts-expect-error there is no such answer
set.containsColumn([], { invalid: true });
// @ts-expect-error a column is an array of texts
set.containsColumn([1]);
// @ts-expect-error the value of this table is no number
const wrong: number = table.get(four);
// @ts-expect-error there is no such code
if (new IpNetworkError().code === 'zone') IpAddress.parse('');
