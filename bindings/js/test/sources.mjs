/**
 * The modules of the package's sources, for what the package does not export: they share a memory
 * and the module for WebAssembly of the package that is built.
 */
import { cpSync, mkdtempSync, readFileSync, rmSync, writeFileSync } from 'node:fs';
import { tmpdir } from 'node:os';
import { join } from 'node:path';
import { bindings, folder } from './package.mjs';

/** What each of these modules exports, in this order. */
export async function exportsOf(...names) {
  const sources = mkdtempSync(join(tmpdir(), 'ipnetwork-'));
  cpSync(join(bindings, 'js/src'), sources, { recursive: true });
  const built = readFileSync(join(folder, 'index.mjs'), 'utf8').match(/^const MODULE.*;$/gm);
  writeFileSync(
    join(sources, 'module.mjs'), built.join('\n').replace(/^const/gm, 'export const'),
  );
  try {
    return await Promise.all(names.map((name) => import(`file://${sources}/${name}.mjs`)));
  } finally {
    rmSync(sources, { recursive: true });
  }
}
