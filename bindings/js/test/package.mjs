/** The package that the tests are of: the folder that IPNETWORK_JS names, or bindings/out/js. */
import { fileURLToPath } from 'node:url';
import { resolve } from 'node:path';

export const folder = process.env.IPNETWORK_JS
  ? resolve(process.env.IPNETWORK_JS)
  : fileURLToPath(new URL('../../out/js', import.meta.url));

export const bindings = fileURLToPath(new URL('../..', import.meta.url));

const ipnetwork = await import(`file://${folder}/node.mjs`);
export default ipnetwork;
