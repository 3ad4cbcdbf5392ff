/**
 * Builds the package: one file for each kind of module, with the library in it.
 *
 *     node bindings/js/build.mjs MODULE FOLDER [INSTANCE]
 *
 * MODULE is the library for C as WebAssembly, with a memory of 32 bits (bindings/wasm/build makes
 * it, proved or of plain Rust, which the page of the package says), FOLDER what is written. INSTANCE takes the place of src/instance.mjs: the tests have one for
 * a memory of 64 bits.
 *
 * The sources import one another by their own names, so that the package is these files one after
 * the other, without the lines of import and export.
 */
import {
  copyFileSync, existsSync, mkdirSync, readFileSync, statSync, writeFileSync,
} from 'node:fs';
import { dirname, join } from 'node:path';
import { fileURLToPath } from 'node:url';
import { deflateRawSync } from 'node:zlib';
import { inflated } from './src/inflate.mjs';
import { unspelled } from './src/spelling.mjs';

const here = dirname(fileURLToPath(import.meta.url));
const [modulePath, folder, instancePath] = process.argv.slice(2);
if (folder === undefined) {
  console.error('usage: node build.mjs MODULE FOLDER [INSTANCE]');
  process.exit(2);
}
if (!existsSync(modulePath)) {
  console.error(`build.mjs: there is no ${modulePath}: bindings/wasm/build makes it`);
  process.exit(1);
}

/** A source without the lines that import. */
const source = (path) => readFileSync(path, 'utf8').replace(/^import [^;]*;\n/gm, '');

/** The names that index.mjs exports, and its files in the order in which they need one another. */
const index = readFileSync(join(here, 'src/index.mjs'), 'utf8');
const names = [...index.matchAll(/^export \{ (.*) \}/gm)].flatMap((match) => match[1].split(', '));
const order = [];
function visit(name) {
  const text = readFileSync(join(here, 'src', name), 'utf8');
  for (const match of text.matchAll(/ from '\.\/(\w+\.mjs)';/g)) {
    if (match[1] !== 'module.mjs' && !order.includes(match[1])) visit(match[1]);
  }
  if (name !== 'index.mjs') order.push(name);
}
visit('index.mjs');

const pathOf = (name) => (
  name === 'instance.mjs' && instancePath ? instancePath : join(here, 'src', name)
);

/**
 * The same code without comments, which the types have, blank lines, blanks before a line and next to
 * a sign, and ends of lines after `;`, `,` and `{`; strings stay as they are.
 */
const TEXT_OR_SIGN = /('(?:[^'\\\n]|\\.)*'|`(?:[^`\\]|\\.)*`)| *([-=+*/%<>!&|^?:;,(){}[\]]) */g;
const squeezed = (code) => code
  .replace(/^export /gm, '')
  .replace(/^ *\/\*[^]*?\*\/\n/gm, '')
  .replace(/\n\s+/g, '\n')
  .replace(TEXT_OR_SIGN, (_, text, sign) => text ?? sign)
  .replace(/([;,{])\n/g, '$1');
const codeOf = (files) => squeezed(files.map((name) => source(pathOf(name))).join('\n'));

/** The text that `unspelled` reads as these bytes, and as a byte 0 after them if it has room. */
function spelled(packed) {
  const digits = '#$%&\'()*+,-./0123456789:;!=>?@ABCDEFGHIJKLMNOPQRSTUVWXYZ'
    + '[]^_`abcdefghijklmnopqrstuvwxyz{|}~';
  let text = '';
  for (let bit = 0; bit < packed.length * 8; bit += 13) {
    const at = bit >> 3;
    const three = packed[at] | (packed[at + 1] ?? 0) << 8 | (packed[at + 2] ?? 0) << 16;
    const number = three >> (bit & 7) & 8191;
    text += digits[Math.floor(number / 91)] + digits[number % 91];
  }
  return text;
}

const bytes = readFileSync(modulePath);
/* inflate.mjs reads only blocks that contain their codes: which of these zlib makes decides each module anew. */
const isUnpacked = (spelling) => {
  try {
    return bytes.equals(inflated(unspelled(spelling), bytes.length));
  } catch {
    return false;
  }
};
const spelling = [9, 8, 7, 6, 5].flatMap((level) => [9, 8, 7].map((memLevel) => ({ level, memLevel })))
  .map((how) => spelled(deflateRawSync(bytes, how)))
  .find(isUnpacked);
if (spelling === undefined) throw new Error('no packing of the module has only blocks that contain their codes');
mkdirSync(folder, { recursive: true });
const write = (name, text) => writeFileSync(join(folder, name), text);
const head = '// Made by build.mjs of the sources in bindings/js/src.\n';
const length = `const MODULE_LENGTH = ${bytes.length};\n`;
write('index.mjs', `${head}const MODULE = "${spelling}";
${length}${codeOf(order)}export { ${names.join(', ')} };\n`);
/* Node takes the module from there, and unpacks it by itself. */
const unpacked = order.filter((name) => name !== 'inflate.mjs');
write('index.cjs', `${head}'use strict';
const { readFileSync } = require('node:fs');
const { join } = require('node:path');
const source = readFileSync(join(__dirname, 'index.mjs'), 'latin1');
const [, MODULE] = source.match(/^const MODULE = "(.*)";$/m);
const inflated = (packed) => require('node:zlib').inflateRawSync(packed);
${length}${codeOf(unpacked)}module.exports = { ${names.join(', ')} };\n`);
write(
  'node.mjs',
  `import library from './index.cjs';\n\nexport const { ${names.join(', ')} } = library;\n`,
);
write('index.d.mts', "export * from './index.cjs';\n");
/* Comments begin at the left, since every byte is loaded. */
const types = readFileSync(join(here, 'index.d.ts'), 'utf8').replace(/^ +(?=\/?\*)/gm, ' ');
write('index.d.cts', types);
copyFileSync(join(here, 'package.json'), join(folder, 'package.json'));

/** The page, with the sizes of what is built in the place of those that are there. */
const { size: codeLength } = statSync(join(folder, 'index.mjs'));
const SIZES = { 'a file of': codeLength, 'a module of': bytes.length };
let page = readFileSync(join(here, 'README.md'), 'utf8');
/* The module of plain Rust says how many bytes its size_t has. An engine may not compile one with an instance of its own. */
const isPlain = instancePath === undefined && WebAssembly.Module.exports(new WebAssembly.Module(bytes))
  .some(({ name }) => name === 'size_t_bytes');
const EITHER = 'a library that is proved for\nWebAssembly, or is plain Rust, made of proved sources and tested: `build` says '
  + 'which. What `wasm-opt` makes of the proved\none, and the code around the library, is tested.';
if (!page.includes(EITHER)) throw new Error('README.md does not say which library there may be');
page = page.replace(EITHER, isPlain
  ? 'a library of plain Rust, made of\nproved sources. It is tested, with a `size_t` of 32 bits, and not proved, as is '
    + 'the code around it.'
  : 'a library that is proved for\nWebAssembly; what `wasm-opt` makes of it, and the code around it, is tested.');
for (const [words, size] of Object.entries(SIZES)) {
  const found = new RegExp(`\\b${words} (\\d+) KB`);
  const built = Math.round(size / 1000);
  if (!found.test(page)) throw new Error(`README.md does not say: ${words} .. KB`);
  const [, said] = page.match(found);
  if (Number(said) !== built && instancePath === undefined && !isPlain) {
    console.log(`README.md says ${words} ${said} KB: it has ${built}`);
  }
  page = page.replace(found, `${words} ${built} KB`);
}
write('README.md', page);
for (const name of ['LICENSE-MIT', 'LICENSE-APACHE', 'NOTICE']) {
  copyFileSync(join(here, '../..', name), join(folder, name));
}
