/**
 * The table of texts that other packages for JavaScript read otherwise, other_readings.txt, of which docs/DIFFERENCES.md
 * shows rows.
 *
 *     node bindings/js/other_readings.mjs            prints it
 *     node bindings/js/other_readings.mjs --check    sees that it is the one in that file, and has the rows of that page
 *     node bindings/js/other_readings.mjs --there    whether the other packages are here
 *
 * It needs the package in bindings/out/js, and the packages of Debian that others.mjs names.
 */
import { readFileSync } from 'node:fs';
import { fileURLToPath } from 'node:url';
import ipnetwork from './test/package.mjs';
import { missing, readers } from './others.mjs';

const TEXTS = [
  '010.1.2.3/8', '10.1.2.3/33', '10/8', '10.1/16', '0x0a.1.2.3/8', '167838208/8',
  '1.2.3.4/255.0.255.0', '1.2.3.4/0.0.0.255', '10.0.0.0/-1', '1.2.3.4/', '10.0.0.0/8/8',
  '10.0.0.0/8x', '10.0.0.0/1e1', '10.0.0.0/08', '10.0.0.0/+8', '10.1.2.3/255.0.0.0', '10.1.2.3/8',
  '2001:db8::1/64', '2001:DB8::1/064', '::ffff:1.2.3.4/96', '::1.2.3.4/96', '::ffff:010.1.2.3/104',
  '2001:db8::1/129', '::1::/64', '12345::/16', 'fe80::1%eth0/64', '1:2:3:4:5:6:7::/64',
];

if (process.argv[2] === '--there') process.exit(missing.length > 0 ? 1 : 0);
if (missing.length > 0) {
  console.error(
    `other_readings.mjs needs what is not here: ${missing.join(' ')} (packages of Debian)`
  );
  process.exit(1);
}

function reading(reader, text) {
  try {
    return `\`${reader.text(reader.read(text))}\``;
  } catch {
    return 'refused';
  }
}

function ours(text) {
  try {
    return `\`${ipnetwork.IpNetwork.parse(text)}\``;
  } catch (error) {
    return `refused: ${error.code}`;
  }
}

const others = readers();
const head = ['Text', ...others.map(({ name, version }) => `${name} ${version}`), 'Here'];
const rows = TEXTS.map((text) => [
  `\`${text}\``, ...others.map((reader) => reading(reader, text)), ours(text)
]);
const line = (cells) => `| ${cells.join(' | ')} |`;
const table = [line(head), `|${head.map(() => '---').join('|')}|`, ...rows.map(line)].join('\n');

if (process.argv[2] === '--check') {
  const text = (name) => readFileSync(fileURLToPath(new URL(name, import.meta.url)), 'utf8');
  const page = text('../../docs/DIFFERENCES.md').split('\n');
  const shown = page.slice(page.indexOf(line(head))).filter((row) => row.startsWith('|'));
  if (text('other_readings.txt') !== `${table}\n` || !page.includes(line(head))
    || shown.some((row) => !table.split('\n').includes(row))) {
    console.error(
      'other_readings.txt or docs/DIFFERENCES.md has another table than node bindings/js/other_readings.mjs prints'
    );
    process.exit(1);
  }
  console.log(`JavaScript: other_readings.txt has what four other packages read in ${TEXTS.length} texts`);
} else {
  console.log(table);
}
