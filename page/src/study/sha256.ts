/** SHA-256 (FIPS 180-4) in plain arithmetic: over plain http, browsers keep their own from pages. */

/** The first 32 bits behind the point of a root. None of those used is within 2,900 units of the last place of a double
 * of another value of these bits, so a root that is off by one unit gives the same. */
const bits = (root: number): number => ((root - Math.floor(root)) * 2 ** 32) | 0;

const PRIMES = Array.from({ length: 310 }, (_, at) => at + 2)
  .filter((it) => Array.from({ length: 16 }, (_, at) => at + 2).every((by) => by >= it || it % by !== 0));
const FIRST = PRIMES.slice(0, 8).map((it) => bits(Math.sqrt(it)));
const ROUNDS = PRIMES.slice(0, 64).map((it) => bits(Math.cbrt(it)));

const turned = (word: number, by: number): number => (word >>> by) | (word << (32 - by));

/** The bytes with their end: a bit 1, zeros, and the number of bits in 64, up to whole blocks of 64 bytes. */
function padded(bytes: Uint8Array): DataView {
  const all = new Uint8Array(64 * Math.ceil((bytes.length + 9) / 64));
  all.set(bytes);
  all[bytes.length] = 0x80;
  const view = new DataView(all.buffer);
  view.setUint32(all.length - 8, Math.floor(bytes.length / 2 ** 29));
  view.setUint32(all.length - 4, (8 * bytes.length) >>> 0);
  return view;
}

/** The 64 words of a block: its own 16, and those made of them. */
function wordsOf(view: DataView, from: number, words: Int32Array): void {
  for (let at = 0; at < 64; at += 1) {
    if (at < 16) {
      words[at] = view.getInt32(from + 4 * at);
      continue;
    }
    const [early, late] = [words[at - 15] ?? 0, words[at - 2] ?? 0];
    const one = turned(early, 7) ^ turned(early, 18) ^ (early >>> 3);
    const two = turned(late, 17) ^ turned(late, 19) ^ (late >>> 10);
    words[at] = (words[at - 16] ?? 0) + one + (words[at - 7] ?? 0) + two;
  }
}

/** The SHA-256 of bytes, in hexadecimal. */
export function sha256(bytes: Uint8Array): string {
  const [view, state, words] = [padded(bytes), Int32Array.from(FIRST), new Int32Array(64)];
  for (let from = 0; from < view.byteLength; from += 64) {
    wordsOf(view, from, words);
    let [a = 0, b = 0, c = 0, d = 0, e = 0, f = 0, g = 0, h = 0] = state;
    for (let at = 0; at < 64; at += 1) {
      const chosen = (e & f) ^ (~e & g);
      const added = chosen + (ROUNDS[at] ?? 0) + (words[at] ?? 0);
      const one = (h + (turned(e, 6) ^ turned(e, 11) ^ turned(e, 25)) + added) | 0;
      const most = (a & b) ^ (a & c) ^ (b & c);
      const two = ((turned(a, 2) ^ turned(a, 13) ^ turned(a, 22)) + most) | 0;
      [h, g, f, e, d, c, b, a] = [g, f, e, (d + one) | 0, c, b, a, (one + two) | 0];
    }
    [a, b, c, d, e, f, g, h].forEach((it, at) => (state[at] = (state[at] ?? 0) + it));
  }
  return Array.from(state, (it) => (it >>> 0).toString(16).padStart(8, "0")).join("");
}
