/**
 * The calls of a WebAssembly module, and its memory. A pointer or a size is two numbers: the low 32
 * bits and the high 32.
 */
export function instanceOf(bytes) {
  return new WebAssembly.Instance(compiled(bytes), {}).exports;
}

/** The module of these bytes, which must be those of a valid module. */
function compiled(bytes) {
  try {
    return new WebAssembly.Module(bytes);
  } catch (error) {
    if (!(error instanceof WebAssembly.CompileError)) throw error;
    throw new Error(
      'ipnetwork needs WebAssembly, which is refused here: where a page has a '
      + 'Content-Security-Policy, its script-src has to have \'wasm-unsafe-eval\'',
      { cause: error },
    );
  }
}
