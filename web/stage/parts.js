// Pieces that all of the page is made of: elements, numbers as people read them, and small tools for lists.
// Texts of the program, its sources, its input and its output become text of elements, and never markup.

/**
 * An element with a class, and with texts and elements in it.
 * @param {string} tag
 * @param {string} [name] its class
 * @param {...(string|Node)} inside
 */
function made(tag, name = "", ...inside) {
  const it = document.createElement(tag);
  if (name !== "") {
    it.className = name;
  }
  it.append(...inside);
  return it;
}

/** An element of SVG with its attributes. @param {string} tag @param {Object<string, string|number>} attributes */
function drawn(tag, attributes, ...inside) {
  const it = document.createElementNS("http://www.w3.org/2000/svg", tag);
  for (const [name, value] of Object.entries(attributes)) {
    it.setAttribute(name, String(value));
  }
  it.append(...inside);
  return it;
}

/** A whole number with a mark at each thousand. @param {number|bigint|string} number */
const grouped = (number) => String(number).replace(/\B(?=(\d{3})+(?!\d))/g, ",");

/** How many there are of something. @param {number} count @param {string} name */
const counted = (count, name) => `${grouped(count)} ${name}${count === 1 ? "" : "s"}`;

/** An address in eight hexadecimal digits. @param {number} number */
const hex = (number) => number.toString(16).padStart(8, "0");

/** Numbers as few words: 0, 2 to 4. @param {number[]} numbers in order */
function ranges(numbers) {
  const found = [];
  for (const it of numbers) {
    const last = found[found.length - 1];
    last !== undefined && last[1] === it - 1 ? (last[1] = it) : found.push([it, it]);
  }
  return found.map(([from, to]) => (from === to ? `${from}` : to === from + 1 ? `${from}, ${to}` : `${from} to ${to}`)).join(", ");
}

/** The bytes that digits spell. @param {string} text pairs of hexadecimal digits, with spaces or without */
function unhexed(text) {
  const digits = text.replace(/\s+/g, "");
  const bytes = new Uint8Array(digits.length / 2);
  for (let k = 0; k < bytes.length; k++) {
    bytes[k] = parseInt(digits.slice(2 * k, 2 * k + 2), 16);
  }
  return bytes;
}

/** The first place in a list where a test holds that holds for all places behind it; the length if there is none. */
function firstWhere(length, test) {
  let [low, high] = [0, length];
  while (low < high) {
    const middle = (low + high) >> 1;
    test(middle) ? (high = middle) : (low = middle + 1);
  }
  return low;
}

/** A map that forgets what was not used for longest. */
class Lately {
  /** @param {number} most */
  constructor(most) {
    this.most = most;
    this.map = new Map();
  }

  get(key) {
    const found = this.map.get(key);
    if (found !== undefined) {
      this.map.delete(key);
      this.map.set(key, found);
    }
    return found;
  }

  set(key, value) {
    this.map.set(key, value);
    if (this.map.size > this.most) {
      this.map.delete(this.map.keys().next().value);
    }
    return value;
  }
}
