/**
 * The calls of the module with a memory of 64 bits, in place of src/instance.mjs: there a pointer
 * or a size is one BigInt. The package gives two numbers for it, which are put together by the
 * types that the module states.
 */
export function instanceOf(bytes) {
  const { exports } = new WebAssembly.Instance(new WebAssembly.Module(bytes), {});
  const { memory } = exports;
  const wide = {
    __heap_base: exports.__heap_base,
    memory: { get buffer() { return memory.buffer; }, grow: growth(memory) },
  };
  for (const [name, types] of parametersOf(bytes)) {
    const call = exports[name];
    wide[name] = (...given) => {
      let at = 0;
      return call(...types.map((type) => {
        if (type !== I64) return given[at++];
        const [low, high] = [given[at], given[at + 1]];
        at += 2;
        return (BigInt(high >>> 0) << 32n) | BigInt(low >>> 0);
      }));
    };
  }
  return wide;
}

const I64 = 0x7e;

/** A memory of 64 bits grows by a BigInt, or, in older engines, by a number. */
const growth = (memory) => (pages) => {
  try {
    return memory.grow(BigInt(pages));
  } catch (error) {
    if (!(error instanceof TypeError)) throw error;
    return memory.grow(pages);
  }
};

/**
 * The name of each function that a module exports, with the types of its parameters. It imports
 * nothing.
 */
function* parametersOf(bytes) {
  let at = 8;
  const number = () => {
    let value = 0;
    for (let shift = 0; ; shift += 7) {
      const byte = bytes[at++];
      value += (byte & 127) * 2 ** shift;
      if (byte < 128) return value;
    }
  };
  const list = (read) => Array.from({ length: number() }, read);
  const word = () => {
    const length = number();
    at += length;
    return new TextDecoder().decode(bytes.subarray(at - length, at));
  };
  let types = [];
  let functions = [];
  while (at < bytes.length) {
    const section = bytes[at++];
    const end = number() + at;
    if (section === 1) {
      types = list(() => {
        at += 1;
        const parameters = list(() => bytes[at++]);
        list(() => bytes[at++]);
        return parameters;
      });
    } else if (section === 3) {
      functions = list(number);
    } else if (section === 7) {
      for (const [name, kind, index] of list(() => [word(), bytes[at++], number()])) {
        if (kind === 0) yield [name, types[functions[index]]];
      }
    }
    at = end;
  }
}
