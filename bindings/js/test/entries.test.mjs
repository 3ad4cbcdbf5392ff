/** The files of the package, and the ways into it. */
import assert from 'node:assert/strict';
import { execFileSync } from 'node:child_process';
import { readFileSync, readdirSync, statSync } from 'node:fs';
import { createRequire } from 'node:module';
import { join } from 'node:path';
import test from 'node:test';
import { createContext, runInContext } from 'node:vm';
import ipnetwork, { bindings, folder } from './package.mjs';

const about = JSON.parse(readFileSync(join(folder, 'package.json'), 'utf8'));

test('what is imported is what is required', () => {
  const required = createRequire(join(folder, 'x.cjs'))(folder);
  assert.deepEqual(Object.keys(required).sort(), Object.keys(ipnetwork).sort());
  for (const name of Object.keys(required)) assert.equal(required[name], ipnetwork[name]);
});

test('every file that package.json names is there, and nothing else', () => {
  const named = JSON.stringify(about.exports).match(/\.\/[\w.]+/g).map((name) => name.slice(2));
  const there = readdirSync(folder);
  for (const name of [...named, ...about.files]) assert.ok(there.includes(name), name);
  const alone = ['package.json', 'README.md'];
  for (const name of there) assert.ok(about.files.includes(name) || alone.includes(name), name);
  assert.equal(about.dependencies, undefined);
  const size = there.reduce((sum, name) => sum + statSync(join(folder, name)).size, 0);
  assert.ok(size < 205_000, `the package has ${size} bytes`);
});

test('it says which version and which build of the library it has', () => {
  const { build, version } = ipnetwork;
  assert.equal(version, about.version);
  assert.ok(['proved', 'plain Rust, made of proved sources'].includes(build), build);
  const text = `${version} (${build})`;
  assert.equal(text, process.env.IPNETWORK_BUILD ?? text);
});

test('in a browser it needs nothing of Node', () => {
  const source = readFileSync(join(folder, 'index.mjs'), 'utf8');
  assert.doesNotMatch(source, /\b(require|process|Buffer|fetch|XMLHttpRequest|import\()\b/);
  assert.doesNotMatch(source, /^import /m);
  const script = `
    const { log } = console;
    for (const name of ['process', 'Buffer', 'global', 'setImmediate', 'clearImmediate', 'fetch']) {
      delete globalThis[name];
    }
    const { AddressSet, IpNetwork } = await import(
      ${JSON.stringify(`file://${join(folder, 'index.mjs')}`)}
    );
    const all = new AddressSet(['::/1', '8000::/1']);
    log(String(IpNetwork.parse('10.1.9.32/255.255.0.0').first), all.toJSON().join());`;
  const printed = execFileSync(process.execPath, [...process.execArgv.filter(
    (flag) => /memory64/.test(flag)
  ),
    '--input-type=module', '--eval', script], { encoding: 'utf8' });
  assert.equal(printed, '10.1.0.0 ::/0\n');
});

test('where WebAssembly is refused it says what to add', () => {
  const source = readFileSync(join(folder, 'index.mjs'), 'utf8').replace(/^export .*$/m, '');
  const globals = { TextEncoder, FinalizationRegistry };
  const strict = createContext(globals, { codeGeneration: { strings: false, wasm: false } });
  assert.throws(() => runInContext(source, strict), (error) => {
    assert.match(error.message, /Content-Security-Policy, .*'wasm-unsafe-eval'/);
    assert.equal(error.cause.name, 'CompileError');
    return true;
  });
});

test('the package has its licences, and each file is one that npm packs', () => {
  for (const name of ['LICENSE-MIT', 'LICENSE-APACHE', 'NOTICE']) {
    assert.equal(
      readFileSync(join(folder, name), 'utf8'), readFileSync(join(bindings, '..', name), 'utf8'),
    );
    assert.ok(about.files.includes(name), name);
  }
});

test('its page has the sizes of what is built', () => {
  const page = readFileSync(join(folder, 'README.md'), 'utf8');
  const [, module] = readFileSync(join(folder, 'index.mjs'), 'utf8').match(/MODULE_LENGTH = (\d+)/);
  const [, code] = page.match(/a file of (\d+) KB/);
  const [, unpacked] = page.match(/a module of (\d+) KB/);
  assert.equal(Number(unpacked), Math.round(module / 1000));
  assert.equal(Number(code), Math.round(statSync(join(folder, 'index.mjs')).size / 1000));
});

test('exports.txt has the functions of the module that the sources name', () => {
  const named = readFileSync(join(bindings, 'js/exports.txt'), 'utf8').trim().split('\n');
  const source = readFileSync(join(bindings, 'js/src/library.mjs'), 'utf8');
  assert.deepEqual(named.sort(), source.match(/\bipnetwork_\w+/g).sort());
});

test('lists are sorted, and doubles in them found, by the library alone', () => {
  const sources = join(bindings, 'js/src');
  for (const name of readdirSync(sources)) {
    const source = readFileSync(join(sources, name), 'utf8');
    assert.doesNotMatch(source, /\.(sort|toSorted)\(/, name);
  }
  const named = readFileSync(join(bindings, 'js/exports.txt'), 'utf8');
  for (const call of ['table_make', 'ranges_make', 'ranges_find', 'ranges_find_column']) {
    assert.match(named, new RegExp(`^ipnetwork_v4_${call}\nipnetwork_v6_${call}$`, 'm'));
  }
});

test('each public name has a type, and each type is there', () => {
  const types = readFileSync(join(folder, 'index.d.cts'), 'utf8');
  const values = [
    ...types.matchAll(/^export (?:abstract )?(?:class|const|function) (\w+)/gm),
  ].map(([, name]) => name);
  assert.deepEqual(values.sort(), Object.keys(ipnetwork).sort());
  for (const [, name, body] of types.matchAll(
    /^export (?:abstract )?class (\w+)[^{]*\{\n([^]*?)^\}/gm
  )) {
    const instance = ipnetwork[name].prototype;
    for (const [, fixed, member] of body.matchAll(/^ {2}(static )?(?:readonly )?(\w+)\??[(:]/gm)) {
      if (['constructor', 'code', 'input', 'index', 'name'].includes(member)) continue;
      assert.ok(member in (fixed ? ipnetwork[name] : instance), `${name}.${member}`);
    }
    for (const member of Object.getOwnPropertyNames(instance)) {
      assert.match(types, new RegExp(`\\b${member}\\b`), `${name}.${member}`);
    }
  }
});
