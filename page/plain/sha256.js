// SHA-256 (FIPS 180-4) of bytes that come part by part: WebCrypto wants all of them at once, and a file may be larger than
// memory.

const ROUNDS = 64;
const BLOCK = 64;

/** The first primes, whose roots give the constants. */
function primes(count) {
  const found = [];
  for (let n = 2; found.length < count; n++) if (found.every((it) => n % it)) found.push(n);
  return found;
}

/** The first 32 bits of the fraction of the k-th root of n, by whole numbers. */
function fraction(n, k) {
  const goal = BigInt(n) << (32n * k);
  let [low, high] = [0n, 1n << 40n];
  while (high - low > 1n) {
    const middle = (low + high) >> 1n;
    if (middle ** k <= goal) low = middle;
    else high = middle;
  }
  return Number(low & 0xffffffffn);
}

const PRIMES = primes(ROUNDS);
const K = Int32Array.from(PRIMES, (n) => fraction(n, 3n));
const START = Int32Array.from(PRIMES.slice(0, 8), (n) => fraction(n, 2n));

/** A digest that is being made. */
export class Sha256 {
  #state = START.slice();
  #words = new Int32Array(ROUNDS);
  /** The bytes of a block that is not whole yet, and how many there are. */
  #rest = new Uint8Array(BLOCK);
  #held = 0;
  #length = 0;

  /** Takes the next bytes. @param {Uint8Array} bytes */
  add(bytes) {
    this.#length += bytes.length;
    let at = 0;
    if (this.#held) {
      at = Math.min(BLOCK - this.#held, bytes.length);
      this.#rest.set(bytes.subarray(0, at), this.#held);
      this.#held += at;
      if (this.#held < BLOCK) return this;
      this.#blocks(this.#rest, 0, BLOCK);
    }
    const whole = bytes.length - ((bytes.length - at) % BLOCK);
    this.#blocks(bytes, at, whole);
    this.#rest.set(bytes.subarray(whole));
    this.#held = bytes.length - whole;
    return this;
  }

  /** The digest of all bytes, in hexadecimal digits. */
  end() {
    const bits = BigInt(this.#length) * 8n;
    const tail = new Uint8Array((this.#held < BLOCK - 8 ? BLOCK : 2 * BLOCK) - this.#held);
    tail[0] = 0x80;
    new DataView(tail.buffer).setBigUint64(tail.length - 8, bits);
    this.add(tail);
    return Array.from(this.#state, (it) => (it >>> 0).toString(16).padStart(8, "0")).join("");
  }

  /** Puts a block into the words, and spreads it over all of them. */
  #spread(bytes, at) {
    const w = this.#words;
    for (let i = 0, p = at; i < 16; i++, p += 4) {
      w[i] = (bytes[p] << 24) | (bytes[p + 1] << 16) | (bytes[p + 2] << 8) | bytes[p + 3];
    }
    for (let i = 16; i < ROUNDS; i++) {
      const x = w[i - 15];
      const y = w[i - 2];
      const s0 = ((x >>> 7) | (x << 25)) ^ ((x >>> 18) | (x << 14)) ^ (x >>> 3);
      const s1 = ((y >>> 17) | (y << 15)) ^ ((y >>> 19) | (y << 13)) ^ (y >>> 10);
      w[i] = (w[i - 16] + s0 + w[i - 7] + s1) | 0;
    }
  }

  /** Takes the blocks from one place to another. */
  #blocks(bytes, from, to) {
    const w = this.#words;
    const state = this.#state;
    for (let at = from; at < to; at += BLOCK) {
      this.#spread(bytes, at);
      let a = state[0];
      let b = state[1];
      let c = state[2];
      let d = state[3];
      let e = state[4];
      let f = state[5];
      let g = state[6];
      let h = state[7];
      for (let i = 0; i < ROUNDS; i++) {
        const s1 = ((e >>> 6) | (e << 26)) ^ ((e >>> 11) | (e << 21)) ^ ((e >>> 25) | (e << 7));
        const t1 = (h + s1 + ((e & f) ^ (~e & g)) + K[i] + w[i]) | 0;
        const s0 = ((a >>> 2) | (a << 30)) ^ ((a >>> 13) | (a << 19)) ^ ((a >>> 22) | (a << 10));
        const t2 = (s0 + ((a & b) ^ (a & c) ^ (b & c))) | 0;
        h = g;
        g = f;
        f = e;
        e = (d + t1) | 0;
        d = c;
        c = b;
        b = a;
        a = (t1 + t2) | 0;
      }
      state[0] += a;
      state[1] += b;
      state[2] += c;
      state[3] += d;
      state[4] += e;
      state[5] += f;
      state[6] += g;
      state[7] += h;
    }
  }
}
