// Lists of 100,000 lines, each as the source of a function that the page runs.

/** The functions by the names of their lists. */
export const LISTS = {
  "random IPv4 networks": `() => {
    let seed = 1;
    const next = () => (seed = (Math.imul(seed, 1103515245) + 12345) >>> 0);
    const line = () => {
      const octets = [next(), next(), next()].map((each) => each >>> 24);
      return octets.join(".") + ".0/" + (12 + ((next() >>> 27) % 13));
    };
    return Array.from({ length: 100000 }, line).join("\\n");
  }`,
  "addresses apart, none of which join": `() => {
    const octets = (at) => [at >> 15, at >> 7, at << 1].map((each) => each & 255);
    const line = (_, at) => "10." + octets(at).join(".");
    return Array.from({ length: 100000 }, line).join("\\n");
  }`,
  "IPv6 networks": `() => {
    const hex = (number) => number.toString(16);
    const groups = (at) => hex(at >> 16) + ":" + hex(at & 65535);
    const line = (_, at) => "2001:db8:" + groups(at) + "::/" + (60 + at % 9);
    return Array.from({ length: 100000 }, line).join("\\n");
  }`,
  "lines that are wrong": `() => Array.from({ length: 100000 }, (_, at) => at + "/x").join("\\n")`,
};
