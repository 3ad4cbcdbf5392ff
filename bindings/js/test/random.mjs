/** Numbers and texts that look random, the same for the same seed. */
export class Random {
  #state;

  constructor(seed) {
    this.#state = seed;
  }

  /** A whole number from 0 to below a bound, which is at most 2^32. */
  below(bound) {
    this.#state = (this.#state + 0x6d2b79f5) | 0;
    let t = Math.imul(this.#state ^ (this.#state >>> 15), 1 | this.#state);
    t = (t + Math.imul(t ^ (t >>> 7), 61 | t)) ^ t;
    return Math.floor((((t ^ (t >>> 14)) >>> 0) / 4294967296) * bound);
  }

  of(list) {
    return list[this.below(list.length)];
  }

  /** An IPv4 address, most of them in one /8, so that networks lie in one another. */
  four() {
    const octet = () => this.of([0, 255, this.below(256), this.below(4), this.below(256)]);
    return `${this.of([10, 10, 10, octet()])}.${octet()}.${octet()}.${octet()}`;
  }

  /** An IPv6 address in one of the forms of RFC 4291, section 2.2. */
  six() {
    const groups = Array.from(
      { length: 8 }, () => this.of([0, 0, 0, this.below(65536), this.below(16), 0xffff]),
    );
    if (this.below(2) === 0) groups.splice(0, 2, 0x2001, 0xdb8);
    const words = groups.map((group) => group.toString(16));
    const kind = this.below(6);
    if (kind === 0) return words.map((word) => word.padStart(4, '0').toUpperCase()).join(':');
    if (kind === 1) return `${words.slice(0, 6).join(':')}:${this.four()}`;
    if (kind === 2) return `::${this.of(['', 'ffff:', 'FFFF:'])}${this.four()}`;
    const from = this.below(8);
    const to = from + 1 + this.below(8 - from);
    if (kind === 3) return words.join(':');
    return `${words.slice(0, from).join(':')}::${words.slice(to).join(':')}`;
  }

  suffix(width) {
    const kind = this.below(12);
    if (kind === 0) return '';
    if (kind === 1) return `/+${this.below(width + 9)}`;
    if (kind === 2) return `/${String(this.below(width + 9)).padStart(5, '0')}`;
    if (kind === 3) return `/${this.of(MASKS)}`;
    if (kind === 4) return `/${this.of([this.four(), ...NO_PREFIXES])}`;
    return `/${this.below(width + 2)}`;
  }

  mutated(text) {
    let made = text;
    for (let times = 1 + this.below(3); times > 0; times -= 1) {
      const at = this.below(made.length + 1);
      const unit = this.of(MUTATIONS);
      const kind = this.below(3);
      if (kind === 0) made = made.slice(0, at) + unit + made.slice(at);
      else made = made.slice(0, at) + (kind === 1 ? unit : '') + made.slice(at + 1);
    }
    return made;
  }

  text() {
    const four = this.below(2) === 0;
    const text = (four ? this.four() : this.six()) + this.suffix(four ? 32 : 128);
    return this.below(3) === 0 ? this.mutated(text) : text;
  }
}

const MASKS = ['255.255.255.0', '255.0.0.0', '0.0.0.0', '255.255.255.255', '255.255.240.0'];
const NO_PREFIXES = ['0.0.0.255', '255.0.255.0', 'ffff::', '-1', '', '0x8', '8 ', '1e1'];
const MUTATIONS = [
  ...'0123456789abcdefABCDEF..::://+-% xg\0\n\u0661\u00e9\u{1f600}\u2028', '\ud800', '\udfff', '::',
  '/8',
];
