export { build, version } from './about.mjs';
export { IpNetworkError } from './errors.mjs';
export { IpAddress, Ipv4Address, Ipv6Address } from './address.mjs';
export { IpNetwork, Ipv4Network, Ipv6Network } from './network.mjs';
export { AddressColumn, NetworkColumn } from './columns.mjs';
export { AddressSet, aggregate, summarizeRange } from './set.mjs';
export { PrefixTable } from './table.mjs';
