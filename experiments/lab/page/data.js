// The rows as the page holds them: columns of numbers, packed, in base64.

/** The bytes that base64 text stands for. */
function bytesOf(text) {
  const raw = atob(text), bytes = new Uint8Array(raw.length);
  for (let i = 0; i < raw.length; i++) bytes[i] = raw.charCodeAt(i);
  return bytes;
}

/** Unpacks bytes by what the browser brings along, else by `inflate`. */
async function unpacked(packed, length) {
  if (typeof DecompressionStream === "undefined") return inflate(packed, length);
  const stream = new Blob([packed]).stream().pipeThrough(new DecompressionStream("deflate"));
  return new Uint8Array(await new Response(stream).arrayBuffer());
}

/** A column of `rows` numbers of `width` bytes each: the lowest bytes of all come first, then the next. */
function columnOf(bytes, at, rows, width) {
  if (width > 4) return wideColumnOf(bytes, at, rows, width);
  const column = new Int32Array(rows), shift = 32 - 8 * width;
  for (let k = 0; k < width; k++) {
    const from = at + k * rows;
    for (let i = 0; i < rows; i++) column[i] |= bytes[from + i] << (8 * k);
  }
  if (shift) for (let i = 0; i < rows; i++) column[i] = column[i] << shift >> shift;
  return column;
}

function wideColumnOf(bytes, at, rows, width) {
  const low = columnOf(bytes, at, rows, 4), high = columnOf(bytes, at + 4 * rows, rows, width - 4);
  const column = new Float64Array(rows);
  for (let i = 0; i < rows; i++) column[i] = high[i] * 4294967296 + (low[i] >>> 0);
  return column;
}

/** All tables and lists of texts that the page holds. */
function heldOf(about, bytes) {
  const held = { tables: {}, texts: {} };
  let at = 0;
  for (const [name, shape] of Object.entries(about.tables)) {
    const table = held.tables[name] = { count: shape.rows };
    for (const [column, width] of shape.columns) {
      table[column] = columnOf(bytes, at, shape.rows, width);
      at += shape.rows * width;
    }
  }
  for (const [name, shape] of Object.entries(about.texts)) {
    const text = new TextDecoder().decode(bytes.subarray(at, at + shape.bytes));
    held.texts[name] = shape.lines ? text.split("\n") : [];
    at += shape.bytes;
  }
  return held;
}

function heldLength(about) {
  const tables = Object.values(about.tables), texts = Object.values(about.texts);
  const width = shape => shape.columns.reduce((sum, [, bytes]) => sum + bytes, 0);
  return tables.reduce((sum, shape) => sum + shape.rows * width(shape), 0)
    + texts.reduce((sum, text) => sum + text.bytes, 0);
}
