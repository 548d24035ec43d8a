// The names of the program: the lines of addresses, the functions that were called, and where their variables are, by what its file has for
// debuggers. A program without that has addresses.

const MOST_FRAMES = 24;
const RA = 1;
const SP = 2;
const FIRST_FLOAT = 32;
// More bytes than a number has. Debugging information may give it any size.
const MOST_OF_NUMBER = 16;

/** A number of DWARF's variable length. @returns {[number, number]} the number, and the place behind it */
function leb(bytes, at, isSigned) {
  let [value, shift, byte] = [0, 0, 0x80];
  while (byte & 0x80) {
    byte = bytes[at++] ?? 0;
    value += (byte & 0x7f) * 2 ** shift;
    shift += 7;
  }
  return [isSigned && byte & 0x40 ? value - 2 ** shift : value, at];
}

/** A word as a number without a sign. */
const word = (number) => number >>> 0;

/** A number as the bytes of a register. */
function bytesOfNumber(number, size) {
  const count = Math.min(size, MOST_OF_NUMBER);
  const bytes = new Uint8Array(count);
  for (let k = 0; k < Math.min(count, 4); k++) {
    bytes[k] = (number >>> (8 * k)) & 255;
  }
  return count > 4 && number < 0 ? bytes.fill(255, 4) : bytes;
}

// What operations of two operands come to.
const OPERATIONS = {
  0x1a: (a, b) => a & b, 0x1c: (a, b) => a - b, 0x1e: (a, b) => Math.imul(a, b), 0x21: (a, b) => a | b, 0x22: (a, b) => a + b,
  0x24: (a, b) => a << b, 0x25: (a, b) => a >>> b, 0x26: (a, b) => a >> b, 0x27: (a, b) => a ^ b,
};

/**
 * Where DWARF's expression says that a variable is, in a frame.
 * @param {Uint8Array} code
 * @param {{x: (number|undefined)[], stack: number|undefined, f?: Uint8Array[]}} frame
 * @param {number} size of the variable
 * @returns {{address: number}|{bytes: Uint8Array}|undefined} nothing if that is not known
 */
function located(code, frame, size) {
  const stack = [];
  const pieces = [];
  let found;
  for (let at = 0; at < code.length; ) {
    const operation = code[at++];
    let value;
    if (operation === 0x93) {
      [value, at] = leb(code, at, false);
      pieces.push(pieceOf(found ?? (stack.length > 0 ? { address: word(stack.pop()) } : undefined), value));
      found = undefined;
      continue;
    }
    [value, at] = operandOf(operation, code, at, frame);
    if (operation === 0x9f) {
      found = { bytes: bytesOfNumber(stack.pop(), Math.max(size, 4)).slice(0, size || 4) };
    } else if (operation === 0x9e) {
      found = { bytes: code.slice(at, at + value) };
      at += value;
    } else if ((operation >= 0x50 && operation < 0x70) || operation === 0x90) {
      found = registerOf(value, frame);
    } else if (operation in OPERATIONS) {
      const right = stack.pop();
      stack.push(OPERATIONS[operation](stack.pop(), right));
    } else if (operation === 0x23) {
      stack.push(stack.pop() + value);
    } else if (operation === 0x1f) {
      stack.push(-stack.pop());
    } else if (operation === 0x20) {
      stack.push(~stack.pop());
    } else if (value !== undefined) {
      stack.push(value);
    } else {
      return undefined;
    }
  }
  if (pieces.length > 0) {
    return pieces.some((it) => it === undefined) ? undefined : { pieces };
  }
  return found ?? (stack.length === 1 && Number.isFinite(stack[0]) ? { address: word(stack[0]) } : undefined);
}

const pieceOf = (found, size) => (found === undefined ? undefined : { ...found, size });

function registerOf(number, frame) {
  if (number >= FIRST_FLOAT) {
    return frame.f === undefined ? undefined : { bytes: frame.f[number - FIRST_FLOAT] };
  }
  const value = number === 0 ? 0 : frame.x[number];
  return value === undefined ? undefined : { bytes: bytesOfNumber(value, 4) };
}

// The number that an operation brings, and the place behind it.
function operandOf(operation, code, at, frame) {
  const view = new DataView(code.buffer, code.byteOffset);
  const fixed = {
    0x03: [4, "getUint32"], 0x08: [1, "getUint8"], 0x09: [1, "getInt8"], 0x0a: [2, "getUint16"], 0x0b: [2, "getInt16"],
    0x0c: [4, "getUint32"], 0x0d: [4, "getInt32"],
  }[operation];
  if (fixed !== undefined) {
    return [view[fixed[1]](at, true), at + fixed[0]];
  }
  if (operation >= 0x30 && operation < 0x50) {
    return [operation - 0x30, at];
  }
  if (operation >= 0x50 && operation < 0x70) {
    return [operation - 0x50, at];
  }
  if (operation >= 0x70 && operation < 0x90) {
    const [offset, end] = leb(code, at, true);
    const base = operation === 0x70 ? 0 : frame.x[operation - 0x70];
    return [base === undefined ? NaN : base + offset, end];
  }
  if (operation === 0x91) {
    const [offset, end] = leb(code, at, true);
    return [frame.stack === undefined ? NaN : frame.stack + offset, end];
  }
  if (operation === 0x9c) {
    return [frame.stack ?? NaN, at];
  }
  return [0x10, 0x11, 0x23, 0x90, 0x93, 0x9e].includes(operation) ? leb(code, at, operation === 0x11) : [undefined, at];
}

class Names {
  /** @param {any} program the page's data of the program */
  constructor(program) {
    this.program = program;
    this.types = program.types;
    this.ecalls = new Set(program.ecalls);
    this.count = program.lines.length / 4;
    // The first address of each piece of a line, at which a step by lines can stop.
    this.starts = Array.from({ length: this.count }, (_, k) => program.lines[4 * k]);
  }

  /** The line of an address. @returns {{file: number, line: number}|undefined} */
  line(address) {
    const at = firstWhere(this.count, (k) => this.starts[k] > address) - 1;
    if (at < 0 || address >= this.program.lines[4 * at + 1]) {
      return undefined;
    }
    return { file: this.program.lines[4 * at + 2], line: this.program.lines[4 * at + 3] };
  }

  /** The function that an address lies in, or the label before it. @returns {[number, number, string]|undefined} */
  function(address) {
    const { functions } = this.program;
    const at = firstWhere(functions.length, (k) => functions[k][0] > address) - 1;
    if (at < 0) {
      return undefined;
    }
    const [start, size] = functions[at];
    return size === 0 || address < start + size ? functions[at] : undefined;
  }

  // The rule by which the caller's registers are found at an address.
  rule(address) {
    const { frames } = this.program;
    const at = firstWhere(frames.length, (k) => frames[k][0] > address) - 1;
    if (at < 0 || address >= frames[at][1]) {
      return undefined;
    }
    const rules = frames[at][2];
    return rules[firstWhere(rules.length, (k) => rules[k][0] > address) - 1];
  }

  /**
   * The functions that are called, the innermost first.
   * @param {{pc: number, x: number[], f?: Uint8Array[]}} node
   * @param {(address: number) => number|undefined} memory a word of the stack
   */
  frames(node, memory) {
    const found = [];
    let frame = { pc: node.pc, x: [...node.x], f: node.f, stack: undefined };
    while (found.length < MOST_FRAMES) {
      const rule = this.rule(frame.pc);
      const base = rule === undefined ? undefined : frame.x[rule[1]];
      frame.stack = base === undefined ? undefined : word(base + rule[2]);
      found.push(frame);
      if (frame.stack === undefined) {
        break;
      }
      const next = { x: frame.x.map((it, k) => (k === SP || (k >= 8 && k < 10) || k >= 18 ? it : undefined)).slice(0, 28), f: undefined };
      next.x[SP] = frame.stack;
      for (const [register, offset] of Object.entries(rule[3])) {
        next.x[register] = memory(word(frame.stack + offset));
      }
      const back = "1" in rule[3] ? next.x[RA] : found.length === 1 ? frame.x[RA] : undefined;
      if (back === undefined || back < 2 || this.function(back - 2) === undefined) {
        break;
      }
      next.pc = back - 2;
      frame = next;
    }
    return found;
  }

  /** The innermost line of the program's own among the functions that are called, and the library's function that it has called. */
  place(frames) {
    const at = frames.findIndex((it) => this.line(it.pc) !== undefined);
    if (at < 0) {
      return { file: -1, line: 0, name: this.function(frames[0].pc)?.[2] ?? "", called: "" };
    }
    const called = at > 0 ? this.function(frames[at - 1].pc)?.[2] ?? "" : "";
    return { ...this.line(frames[at].pc), name: this.function(frames[at].pc)?.[2] ?? "", called };
  }

  // The functions and blocks of the program around an address, the innermost first.
  around(address, scopes = this.program.scopes) {
    for (const scope of scopes) {
      if (scope.ranges.some(([low, high]) => low <= address && address < high)) {
        return [...this.around(address, scope.inside), scope];
      }
    }
    return [];
  }

  /** The variables of the functions that are called: name, function, type, and where each is, if that is known. */
  locals(frames) {
    const found = [];
    const functions = frames.map((it) => this.function(it.pc)?.[0]);
    frames.forEach((frame, k) => {
      const scopes = this.around(frame.pc);
      // How often the same function has been called around this call of it.
      const depth = functions.slice(k + 1).filter((it) => it === functions[k]).length;
      const seen = new Set();
      scopes.forEach((scope, at) => {
        const name = scopes.slice(at).find((it) => it.name !== "")?.name ?? "";
        for (const variable of scope.variables) {
          if (!seen.has(variable.name)) {
            seen.add(variable.name);
            found.push({ name: variable.name, function: name, depth, type: variable.type, where: this.where(variable, frame) });
          }
        }
      });
    });
    return found;
  }

  where(variable, frame) {
    const size = this.types[variable.type]?.size ?? 4;
    if (variable.value !== undefined) {
      return { bytes: bytesOfNumber(variable.value, size) };
    }
    const place = variable.places.find(([low, high]) => low === null || (low <= frame.pc && frame.pc < high));
    return place === undefined ? undefined : located(unhexed(place[2]), frame, size);
  }

  /** The variable that is always there and in which an address lies. */
  global(address) {
    const { globals } = this.program;
    const at = firstWhere(globals.length, (k) => globals[k].at > address) - 1;
    const it = globals[at];
    return it !== undefined && address < it.at + (this.types[it.type]?.size ?? 0) ? it : undefined;
  }

  /** The name of a label at an address of a text. */
  label(address) {
    return Object.entries(this.program.labels).find(([, at]) => at === address)?.[0];
  }
}
