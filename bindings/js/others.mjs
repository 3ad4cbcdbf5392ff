/**
 * The readers of networks of four packages for JavaScript, as Debian ships them. Each is given a
 * text, and gives what the package reads in it; or it throws, as the package does.
 */
import { existsSync } from 'node:fs';
import Module, { createRequire } from 'node:module';

const FOLDER = '/usr/share/nodejs/';
/* Where Debian's packages look for one another; another Node than Debian's needs the path. */
process.env.NODE_PATH = FOLDER;
Module._initPaths();
const require = createRequire(FOLDER);

/** The packages that are not here, as Debian names them. */
export const missing = ['ipaddr.js', 'netmask', 'ip', 'ip-address']
  .filter((name) => !existsSync(`${FOLDER}${name}/package.json`))
  .map((name) => `node-${name}`);

const versionOf = (name) => require(`./${name}/package.json`).version;
const load = (name) => require(`./${name}`);

/**
 * Of each package its name, its version, how a program would read a network by it, and that network
 * as a text.
 */
export function readers() {
  const ipaddr = load('ipaddr.js');
  const { Netmask } = load('netmask');
  const ip = load('ip');
  const { Address4, Address6 } = load('ip-address');
  return [
    {
      name: 'ipaddr.js', version: versionOf('ipaddr.js'),
      read: (text) => ipaddr.parseCIDR(text),
      text: ([address, prefix]) => `${address}/${prefix}`,
    },
    {
      name: 'netmask', version: versionOf('netmask'),
      read: (text) => new Netmask(text),
      text: (block) => `${block.base}/${block.bitmask}`,
    },
    {
      name: 'ip', version: versionOf('ip'),
      read: (text) => ip.cidrSubnet(text),
      text: (subnet) => `${subnet.networkAddress}/${subnet.subnetMaskLength}`,
    },
    {
      name: 'ip-address', version: versionOf('ip-address'),
      read: (text) => (text.includes(':') ? new Address6(text) : new Address4(text)),
      text: (address) => `${address.correctForm()}${address.subnet}`,
    },
  ];
}
