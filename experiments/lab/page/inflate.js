"use strict";
// Unpacks zlib's format (RFC 1950 and 1951), for browsers without DecompressionStream.

const LENGTH_BASES = [3, 4, 5, 6, 7, 8, 9, 10, 11, 13, 15, 17, 19, 23, 27, 31, 35, 43, 51, 59, 67, 83, 99, 115, 131,
  163, 195, 227, 258];
const LENGTH_EXTRAS = [0, 0, 0, 0, 0, 0, 0, 0, 1, 1, 1, 1, 2, 2, 2, 2, 3, 3, 3, 3, 4, 4, 4, 4, 5, 5, 5, 5, 0];
const DISTANCE_BASES = [1, 2, 3, 4, 5, 7, 9, 13, 17, 25, 33, 49, 65, 97, 129, 193, 257, 385, 513, 769, 1025, 1537,
  2049, 3073, 4097, 6145, 8193, 12289, 16385, 24577];
const DISTANCE_EXTRAS = [0, 0, 0, 0, 1, 1, 2, 2, 3, 3, 4, 4, 5, 5, 6, 6, 7, 7, 8, 8, 9, 9, 10, 10, 11, 11, 12, 12, 13,
  13];
const ORDER_OF_LENGTHS = [16, 17, 18, 0, 8, 7, 9, 6, 10, 5, 11, 4, 12, 3, 13, 2, 14, 1, 15];

/** A Huffman code by the lengths of its words: how many there are of each length, and the symbols in their order. */
function codeOf(lengths) {
  const counts = new Uint16Array(16), starts = new Uint16Array(16), symbols = new Uint16Array(lengths.length);
  for (const length of lengths) counts[length]++;
  counts[0] = 0;
  for (let length = 1; length < 15; length++) starts[length + 1] = starts[length] + counts[length];
  lengths.forEach((length, symbol) => { if (length) symbols[starts[length]++] = symbol; });
  return { counts, symbols };
}

/** Reads bits, lowest first. */
class Bits {
  constructor(bytes, at) { this.bytes = bytes; this.at = at; this.held = 0; this.count = 0; }

  take(count) {
    while (this.count < count) { this.held |= this.bytes[this.at++] << this.count; this.count += 8; }
    const value = this.held & ((1 << count) - 1);
    this.held >>>= count;
    this.count -= count;
    return value;
  }

  symbol(code) {
    let value = 0, first = 0, index = 0;
    for (let length = 1; length < 16; length++) {
      value |= this.take(1);
      const count = code.counts[length];
      if (value - count < first) return code.symbols[index + value - first];
      index += count;
      first = (first + count) << 1;
      value <<= 1;
    }
    throw new Error("the rows are damaged");
  }

  toByte() { this.held = 0; this.count = 0; }
}

/** The two codes that a block brings along. */
function broughtCodes(bits) {
  const literals = bits.take(5) + 257, distances = bits.take(5) + 1, given = bits.take(4) + 4;
  const lengths = new Array(19).fill(0);
  for (let i = 0; i < given; i++) lengths[ORDER_OF_LENGTHS[i]] = bits.take(3);
  const code = codeOf(lengths), found = [];
  while (found.length < literals + distances) {
    const symbol = bits.symbol(code);
    if (symbol < 16) found.push(symbol);
    else {
      const value = symbol === 16 ? found[found.length - 1] : 0;
      let times = symbol === 16 ? 3 + bits.take(2) : symbol === 17 ? 3 + bits.take(3) : 11 + bits.take(7);
      while (times--) found.push(value);
    }
  }
  return [codeOf(found.slice(0, literals)), codeOf(found.slice(literals))];
}

function fixedCodes() {
  const lengths = Array.from({ length: 288 }, (_, i) => i < 144 ? 8 : i < 256 ? 9 : i < 280 ? 7 : 8);
  return [codeOf(lengths), codeOf(new Array(30).fill(5))];
}

/** Unpacks a block of literals and copies to `out`, from `at` on; says where it ends. */
function inflateBlock(bits, [literals, distances], out, at) {
  for (;;) {
    const symbol = bits.symbol(literals);
    if (symbol === 256) return at;
    if (symbol < 256) { out[at++] = symbol; continue; }
    let length = LENGTH_BASES[symbol - 257] + bits.take(LENGTH_EXTRAS[symbol - 257]);
    const far = bits.symbol(distances), distance = DISTANCE_BASES[far] + bits.take(DISTANCE_EXTRAS[far]);
    for (; length--; at++) out[at] = out[at - distance];
  }
}

/** What was packed, of which the length is known. */
function inflate(packed, length) {
  const bits = new Bits(packed, 2), out = new Uint8Array(length);
  let at = 0, last = 0;
  while (!last) {
    last = bits.take(1);
    const kind = bits.take(2);
    if (kind === 0) {
      bits.toByte();
      const count = bits.take(16);
      bits.take(16);
      out.set(packed.subarray(bits.at, bits.at + count), at);
      bits.at += count;
      at += count;
    } else at = inflateBlock(bits, kind === 1 ? fixedCodes() : broughtCodes(bits), out, at);
  }
  return out;
}
