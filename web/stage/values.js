// Values by their types: numbers, texts, structures, arrays and matrices, as text and as elements of the page.

const MOST_ELEMENTS = 24;
const MOST_OF_FEW_RANKS = 40;
// So many elements are shown, too, rather than a line that stands for them.
const SHORT_FOLD = 2;
const MOST_ROWS = 12;
// The same if a reader asks for all elements; and how many are shown of those that requests take or bring.
const MOST_UNFOLDED = 1024;
const MOST_UNFOLDED_ROWS = 64;
const MOST_TOUCHED = 24;
const FEW_TOUCHED = 4;
const MOST_TEXT = 200;
const MOST_CHANGED = 24;
// How many values are shown of all boxes of a stop together, and of one box unless a reader asks for all; and how deep they lie in others.
// Unions of unions have millions in a few bytes.
const MOST_VALUES = 12_000;
const MOST_OF_FOLDED = 1500;
const MOST_INSIDE = 12;

/** A number of the kind double in as few digits as a person wants to read. */
function shortNumber(value) {
  if (Number.isInteger(value) && Math.abs(value) < 1e9) {
    return Object.is(value, -0) ? "-0" : String(value);
  }
  if (!Number.isFinite(value)) {
    return Number.isNaN(value) ? "nan" : value > 0 ? "inf" : "-inf";
  }
  const text = value.toPrecision(6);
  return text.includes("e") ? String(Number(text)) : text.replace(/(\.\d*?)0+$/, "$1").replace(/\.$/, "");
}

/** Bytes as a text up to its end, or nothing if they are none. */
function textIn(bytes) {
  const end = bytes.indexOf(0);
  const letters = end < 0 ? bytes : bytes.subarray(0, end);
  const isText = (letters.length > 0 || bytes.every((it) => it === 0)) && letters.every((it) => (it >= 32 && it < 127) || it === 10 || it === 9);
  return isText ? `"${new TextDecoder().decode(letters.subarray(0, MOST_TEXT)).replaceAll("\n", "\\n").replaceAll("\t", "\\t")}"` : undefined;
}

/** What a value of a scalar type is. @param {any} type @param {Uint8Array} bytes @param {(address: number) => string} named */
function scalar(type, bytes, named) {
  const view = new DataView(bytes.buffer, bytes.byteOffset, bytes.byteLength);
  const size = Math.min(type?.size || bytes.length, bytes.length);
  if (bytes.length < size || size === 0) {
    return "?";
  }
  if (type?.kind === "float") {
    return size === 8 ? shortNumber(view.getFloat64(0, true)) : size === 4 ? shortNumber(Number(view.getFloat32(0, true).toPrecision(7))) : "?";
  }
  const isSigned = type?.kind === "int" || type?.kind === "char" || type?.kind === "enumeration";
  const whole = wholeNumber(view, size, isSigned);
  if (type?.kind === "pointer") {
    return named(Number(whole));
  }
  if (type?.kind === "enumeration") {
    return type.values[whole] ?? String(whole);
  }
  if (type?.kind === "bool") {
    return whole === 0n ? "false" : "true";
  }
  if ((type?.kind === "char" || type?.kind === "byte") && size === 1 && whole >= 32n && whole < 127n) {
    return `'${String.fromCharCode(Number(whole))}'`;
  }
  return String(whole);
}

// A whole number of 1, 2, 4 or 8 bytes.
function wholeNumber(view, size, isSigned) {
  if (size === 8) {
    return isSigned ? view.getBigInt64(0, true) : view.getBigUint64(0, true);
  }
  const number = size === 1 ? view.getUint8(0) : size === 2 ? view.getUint16(0, true) : view.getUint32(0, true);
  return isSigned ? BigInt.asIntN(8 * size, BigInt(number)) : BigInt(number);
}

/** The cells of a value: each scalar in it, with the bytes that it has. */
class Shown {
  /**
   * @param {any[]} types
   * @param {(address: number) => string} named
   * @param {boolean} isOpen whether long arrays are shown with all their elements
   * @param {[number, number][]} touched where bytes of the box begin and end that requests take or bring
   * @param {number} most how many of the first elements of a long array are shown
   * @param {{left: number}} room how many values there may be
   */
  constructor(types, named, isOpen = false, touched = [], most = MOST_ELEMENTS, room = { left: MOST_VALUES }) {
    Object.assign(this, { types, named, isOpen, touched, most, room, inside: 0 });
  }

  /**
   * A value as an element. Each cell knows its first byte in the box and how many it has, so that arrows and marks find it.
   * @param {number|null} number the type
   * @param {Uint8Array} bytes
   * @param {Uint8Array|undefined} before what was there at the stop before
   * @param {number} at the first byte in its box
   */
  value(number, bytes, before, at = 0) {
    const type = this.types[number];
    this.room.left -= 1;
    if (type?.kind !== "array" && type?.kind !== "record") {
      return this.cell(scalar(type, bytes, this.named), at, bytes, before);
    }
    if (this.room.left <= 0 || this.inside >= MOST_INSIDE) {
      return this.cell("…", at, bytes, before);
    }
    this.inside += 1;
    const found = type.kind === "array" ? this.array(type, bytes, before, at) : this.record(type, bytes, before, at);
    this.inside -= 1;
    return found;
  }

  cell(text, at, bytes, before) {
    const isNew = before !== undefined && isOther(bytes, before);
    const it = made("span", `cell${isNew ? " changed" : ""}${text.startsWith('"') ? " text" : ""}`, text);
    it.dataset.at = String(at);
    it.dataset.size = String(bytes.length);
    if (isNew) {
      it.append(made("span", "aside", " (new)"));
    }
    return it;
  }

  record(type, bytes, before, at) {
    const list = made("dl", "record");
    for (const it of type.members.slice(0, MOST_ELEMENTS)) {
      const size = this.types[it.type]?.size ?? 0;
      const inside = this.value(it.type, bytes.subarray(it.at, it.at + size), before?.subarray(it.at, it.at + size), at + it.at);
      list.append(made("dt", "", it.name), made("dd", "", inside));
    }
    return list;
  }

  array(type, bytes, before, at) {
    const element = this.types[type.of];
    const size = element?.size ?? 0;
    if (size === 0) {
      return made("span", "note", "empty");
    }
    const isText = size === 1 && (element.kind === "char" || element.kind === "byte") && type.lengths.length === 1;
    const text = isText ? textIn(bytes) : undefined;
    if (text !== undefined) {
      return this.cell(text, at, bytes, before);
    }
    const lengths = type.lengths.length > 1 && type.lengths[0] === 0 ? [Math.floor(bytes.length / size)] : type.lengths;
    if (lengths.length === 2) {
      return this.matrix(type.of, lengths, size, bytes, before, at);
    }
    return this.row(type.of, size, bytes, before, at);
  }

  matrix(of, [rows, columns], size, bytes, before, at) {
    const table = made("table", "matrix");
    const most = this.isOpen ? MOST_UNFOLDED_ROWS : MOST_ROWS;
    for (let i = 0; i < Math.min(rows, most); i++) {
      const row = made("tr", "", made("th", "", String(i)));
      for (let j = 0; j < Math.min(columns, most); j++) {
        const from = (i * columns + j) * size;
        row.append(made("td", "", this.value(of, bytes.subarray(from, from + size), before?.subarray(from, from + size), at + from)));
      }
      columns > most && row.append(made("td", "note", "…"));
      table.append(row);
    }
    return rows > most || columns > most ? made("div", "", table, made("p", "note fold", `${rows} rows of ${columns}`)) : table;
  }

  // Elements one beside another: the first ones, those that changed or that requests take or bring, and a line for the rest.
  row(of, size, bytes, before, at) {
    const count = Math.floor(bytes.length / size);
    const part = (from, content) => content?.subarray(from * size, (from + 1) * size);
    const chosen = this.isOpen ? Array.from({ length: Math.min(count, MOST_UNFOLDED) }, (_, k) => k) : chosenElements(count, size, bytes, before, this.most);
    const shown = withoutGaps(chosen.length < count ? [...chosen, ...touchedElements(count, size, at, this.touched)] : chosen);
    const isPlain = !["array", "record"].includes(this.types[of]?.kind);
    const list = made("div", isPlain ? "row" : "rows");
    let left = 0;
    let longest = [0, 0];
    for (let k = 0; k <= count; k++) {
      if (k < count && shown.has(k)) {
        left > 0 && list.append(foldedMark(left, k, size, bytes, at));
        left = 0;
        const it = this.value(of, part(k, bytes), part(k, before), at + k * size);
        list.append(made("span", "element", made("span", "index", String(k)), it));
        longest = [Math.max(longest[0], String(k).length), Math.max(longest[1], isPlain ? it.firstChild.textContent.length : 0)];
      } else if (k < count) {
        left += 1;
      }
    }
    left > 0 && list.append(foldedMark(left, count, size, bytes, at));
    // Elements of the same width stand below each other.
    list.style.setProperty("--wide", `${(0.4 * longest[0] + 0.52 * longest[1] + 0.6).toFixed(2)}rem`);
    return list;
  }
}

/** Whether two pieces of memory differ. */
const isOther = (a, b) => a.length !== b.length || a.some((it, k) => it !== b[k]);

// The elements of a long array that are shown: all of a short one; else the first ones up to where only equal ones follow, and what changed.
function chosenElements(count, size, bytes, before, most) {
  if (count <= most + 4) {
    return Array.from({ length: count }, (_, k) => k);
  }
  const isSame = (a, b) => !isOther(bytes.subarray(a * size, (a + 1) * size), bytes.subarray(b * size, (b + 1) * size));
  let last = count - 1;
  while (last > 0 && isSame(last - 1, count - 1)) {
    last -= 1;
  }
  const chosen = Array.from({ length: Math.min(most, last + 1) }, (_, k) => k);
  for (let k = most, more = 0; before !== undefined && k < count && more < MOST_CHANGED; k++) {
    if (isOther(bytes.subarray(k * size, (k + 1) * size), before.subarray(k * size, (k + 1) * size))) {
      chosen.push(k);
      more += 1;
    }
  }
  return chosen;
}

// The elements that requests take or bring: of each request the first and the last ones, or the first one if there are many.
function touchedElements(count, size, at, touched) {
  const chosen = [];
  for (const [begin, end] of touched) {
    const [first, last] = [Math.max(0, Math.floor((begin - at) / size)), Math.min(count, Math.ceil((end - at) / size)) - 1];
    const isWide = last - first > 5;
    for (let k = first; k <= last && chosen.length < MOST_TOUCHED; k = touched.length > FEW_TOUCHED ? last + 1 : isWide && k === first + 2 ? last - 2 : k + 1) {
      chosen.push(k);
    }
  }
  return chosen;
}

// The elements that are chosen, and those of short gaps between them.
function withoutGaps(chosen) {
  const found = new Set();
  let last = -1;
  for (const k of [...chosen].sort((a, b) => a - b)) {
    for (let gap = k - last - 1 <= SHORT_FOLD ? last + 1 : k; gap <= k; gap++) {
      found.add(gap);
    }
    last = k;
  }
  return found;
}

// Stands for elements that are not shown.
function foldedMark(left, end, size, bytes, at) {
  const from = (end - left) * size;
  const isZero = bytes.subarray(from, end * size).every((it) => it === 0);
  const it = made("span", "cell folded fold", `${grouped(left)} ${isZero ? "× 0" : "more"}`);
  it.dataset.at = String(at + from);
  it.dataset.size = String(left * size);
  return it;
}
