// The SHA-256 of bytes (FIPS 180-4), in 64 hexadecimal digits. A browser's own answers later, and paper is drawn at once.
const sumOf = (() => {
  'use strict';
  const primes = [];
  for (let n = 2; primes.length < 64; n += 1) if (primes.every((p) => n % p)) primes.push(n);
  // The first 32 bits of the fraction of a root.
  const fraction = (root) => Math.floor((root - Math.floor(root)) * 2 ** 32) | 0;
  const CONSTANTS = primes.map((p) => fraction(Math.cbrt(p))), FIRST = primes.slice(0, 8).map((p) => fraction(Math.sqrt(p)));
  const turned = (word, by) => (word >>> by) | (word << (32 - by));

  // The bytes with their end: 80, zeros, and the number of bits, to whole blocks of 64 bytes.
  function padded(bytes) {
    const whole = new Uint8Array(Math.ceil((bytes.length + 9) / 64) * 64), view = new DataView(whole.buffer);
    whole.set(bytes);
    whole[bytes.length] = 0x80;
    view.setUint32(whole.length - 8, Math.floor(bytes.length / 2 ** 29));
    view.setUint32(whole.length - 4, bytes.length * 8 >>> 0);
    return view;
  }

  function schedule(view, at, words) {
    for (let k = 0; k < 16; k += 1) words[k] = view.getInt32(at + 4 * k);
    for (let k = 16; k < 64; k += 1) {
      const a = words[k - 15], b = words[k - 2];
      const low = turned(a, 7) ^ turned(a, 18) ^ (a >>> 3), high = turned(b, 17) ^ turned(b, 19) ^ (b >>> 10);
      words[k] = (words[k - 16] + low + words[k - 7] + high) | 0;
    }
  }

  function block(state, words) {
    let [a, b, c, d, e, f, g, h] = state;
    for (let k = 0; k < 64; k += 1) {
      const one = (h + (turned(e, 6) ^ turned(e, 11) ^ turned(e, 25)) + ((e & f) ^ (~e & g)) + CONSTANTS[k] + words[k]) | 0;
      const other = ((turned(a, 2) ^ turned(a, 13) ^ turned(a, 22)) + ((a & b) ^ (a & c) ^ (b & c))) | 0;
      [h, g, f, e, d, c, b, a] = [g, f, e, (d + one) | 0, c, b, a, (one + other) | 0];
    }
    return [a, b, c, d, e, f, g, h].map((word, k) => (state[k] + word) | 0);
  }

  return (bytes) => {
    const view = padded(bytes), words = new Int32Array(64);
    let state = FIRST;
    for (let at = 0; at < view.byteLength; at += 64) {
      schedule(view, at, words);
      state = block(state, words);
    }
    return state.map((word) => (word >>> 0).toString(16).padStart(8, '0')).join('');
  };
})();
