/**
 * Rows with known answers: those of the test in C, and those of tests/rows that have a call
 * here.
 */
import assert from 'node:assert/strict';
import { readFileSync } from 'node:fs';
import { join } from 'node:path';
import test from 'node:test';
import ipnetwork, { bindings } from './package.mjs';

const {
  AddressSet, IpAddress, IpNetwork, IpNetworkError, Ipv4Address, Ipv4Network, Ipv6Address,
  Ipv6Network, PrefixTable,
} = ipnetwork;

/** What a call gives as a text, or the code of its error. */
function said(call) {
  try {
    return String(call());
  } catch (error) {
    if (!(error instanceof IpNetworkError)) throw error;
    return error.code;
  }
}

test('the rows of c/rows.h', () => {
  const codes = { YES: undefined, FORM: 'format', ADDR: 'address', PREF: 'prefix' };
  const source = readFileSync(join(bindings, 'c/rows.h'), 'utf8');
  const rows = [...source.matchAll(/^ {4}\{("[^"]*"), (\w+), (\w+), ("[^"]*"|NULL)\},$/gm)];
  assert.equal(rows.length, source.match(/^ {4}\{"/gm).length);
  assert.ok(rows.length > 60);
  for (const [, quoted, four, six, canonical] of rows) {
    const text = JSON.parse(quoted);
    const wanted = canonical === 'NULL' ? undefined : JSON.parse(canonical);
    assert.equal(said(() => Ipv4Network.parse(text)), codes[four] ?? wanted, text);
    assert.equal(said(() => Ipv6Network.parse(text)), codes[six] ?? wanted, text);
    /* Of either family: the prefix if the address is one of either, else the cause that both
     * have. */
    const cause = four === 'PREF' || six === 'PREF' ? 'prefix' : codes[four];
    assert.equal(said(() => IpNetwork.parse(text)), wanted ?? cause, text);
    assert.equal(IpNetwork.tryParse(text)?.toString(), wanted, text);
  }
});

/* The causes as tests/rows writes them, and the codes of this package. */
const CAUSES = { Format: 'format', Addr: 'address', Prefix: 'prefix' };
const list = (words) => new AddressSet(words);
const blocks = (set) => ([...set.blocks()].join(' ') || 'nothing');
const halves = (words) => {
  const at = words.indexOf('with');
  return [list(words.slice(0, at)), list(words.slice(at + 1))];
};

/**
 * For a call of tests/rows what the package gives, of the rest of the line as a text and as
 * words.
 */
const CALLS = {
  address4: (text) => Ipv4Address.tryParse(text) ?? 'invalid IPv4 address syntax',
  address6: (text) => Ipv6Address.tryParse(text) ?? 'invalid IPv6 address syntax',
  address: (text) => IpAddress.tryParse(text) ?? 'invalid IP address syntax',
  octets: (text) => IpAddress.parse(text).octets.join(' '),
  number: (text) => IpAddress.parse(text).number,
  read4: (text) => said(() => Ipv4Network.parse(text)),
  read6: (text) => said(() => Ipv6Network.parse(text)),
  cause: (text) => said(() => IpNetwork.parse(text) && 'none'),
  network: (text) => IpNetwork.parse(text).first,
  broadcast: (text) => IpNetwork.parse(text).last,
  mask: (text) => IpNetwork.parse(text).mask,
  contains: (_, [network, address]) => IpNetwork.parse(network).contains(address),
  is_subnet_of: (_, [one, other]) => IpNetwork.parse(one).isSubnetOf(other),
  is_supernet_of: (_, [one, other]) => IpNetwork.parse(one).isSupernetOf(other),
  overlaps: (_, [one, other]) => IpNetwork.parse(one).overlaps(other),
  equal: (_, [one, other]) => IpNetwork.parse(one).equals(IpNetwork.parse(other)),
  less: (_, [one, other]) => IpNetwork.parse(one).compare(IpNetwork.parse(other)) < 0,
  count: (text) => Array.from(IpNetwork.parse(text)).length,
  to_value: (text) => JSON.stringify(IpNetwork.parse(text)),
  new: (_, [address, prefix]) => made(address, prefix, 'invalid prefix'),
  new_checked: (_, [address, prefix]) => made(address, prefix, 'none'),
  set: (_, words) => blocks(list(words)),
  union: (_, words) => blocks(halves(words)[0].union(halves(words)[1])),
  intersection: (_, words) => blocks(halves(words)[0].intersection(halves(words)[1])),
  difference: (_, words) => blocks(halves(words)[0].difference(halves(words)[1])),
  address_count: (_, words) => list(words).size,
};

function made(address, prefix, refusal) {
  const kind = address.includes(':') ? Ipv6Network : Ipv4Network;
  const text = said(() => new kind(address, Number(prefix)));
  return text === 'prefix' ? refusal : text;
}

test('the rows of tests/rows', () => {
  const folder = join(bindings, '../tests/rows');
  const questions = readFileSync(join(folder, 'stdin'), 'utf8').split('\n');
  const answers = readFileSync(join(folder, 'stdout'), 'utf8').split('\n');
  let asked = 0;
  questions.forEach((line, row) => {
    const [call] = line.split(' ', 1);
    if (CALLS[call] === undefined) return;
    const text = line.slice(call.length + 1);
    const wanted = answers[row].slice(`${line} = `.length);
    assert.equal(answers[row], `${line} = ${wanted}`);
    assert.equal(String(CALLS[call](text, text.split(' '))), CAUSES[wanted] ?? wanted, line);
    asked += 1;
  });
  assert.ok(asked > 200, `${asked} rows`);
});

test('the tables of tests/rows', () => {
  /* The longest network with an address: routes of RFC 1918's blocks in one another. */
  const table = new PrefixTable(
    [['10.0.0.0/8', 1], ['10.1.0.0/16', 2], ['10.1.2.0/24', 3], ['::/0', 4]]
  );
  assert.equal(table.lookup('10.1.2.9').value, 3);
  assert.equal(table.lookup('10.1.3.9').value, 2);
  assert.equal(table.lookup('10.9.9.9').value, 1);
  assert.equal(table.lookup('11.0.0.0'), undefined);
  assert.equal(table.lookup('ffff::').value, 4);
});
