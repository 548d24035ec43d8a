// What a rank has where the machine stands: its areas, its variables and what they point to, its queue, each with its bytes.

// Of one variable or area, and of all of a rank.
const MOST_OF_BOX = 1 << 16;
const MOST_OF_RANK = 1 << 19;
const MOST_BOXES = 200;
const STACK_BYTES = 8192;
// What bsplib's heap has before a block that it gives and behind it: its size with a mark, how much was asked for, and a word.
const HEAP_HEAD = 8;
const HEAP_USED = 1;
const HEAP_BEHIND = 0xb1e7c9d3;
const MOST_MESSAGES = 12;

/**
 * Something with bytes: `key` is the same at each stop, `note` says what it is beside its name, `of` is the type of its elements if it has
 * many, else `type` is that of all of it.
 * @typedef {{key: string, name: string, note: string, address: number|undefined, size: number, bytes: Uint8Array, type: number|null|undefined,
 *   of: number|null|undefined, isArea: boolean}} Box
 */

class Boxes {
  /** @param {Machine} machine @param {Names} names */
  constructor(machine, names) {
    Object.assign(this, { machine, names, types: names.types });
  }

  /** All that is shown of a rank. @param {number} rank @param {[number, number][]} more places of its memory, and their sizes */
  async of(rank, more) {
    const { machine, names } = this;
    const node = await machine.node(rank);
    if (machine.settings.float && names.program.scopes.length > 0) {
      const text = await machine.ask(`fregs ${rank}`);
      node.f = [...text.matchAll(/=([0-9a-f]{16})/g)].map((it) => unhexed(it[1]).reverse());
    }
    const [sp, { memory }] = [node.x[SP], machine.settings];
    const stack = sp < memory ? await machine.bytes(rank, sp, Math.min(STACK_BYTES, memory - sp)) : new Uint8Array(0);
    const frames = names.frames(node, wordIn(stack, sp));
    const areas = areasOf(await machine.ask(`areas ${rank}`));
    const found = { rank, node, place: names.place(frames), areas, boxes: [], queue: await this.queue(rank) };
    await this.fill(found, frames, more);
    return found;
  }

  async fill(found, frames, more) {
    const variables = [...this.globals(), ...this.locals(frames)];
    const room = { left: MOST_OF_RANK };
    await this.read(found.rank, variables, room);
    const areas = found.areas.map((it, k) => this.area(it, k, variables));
    await this.read(found.rank, areas, room);
    const pointed = await this.pointed(found.rank, variables, [...areas, ...variables], room);
    const taken = new Set(areas.map((it) => it.key));
    found.boxes = [...areas, ...pointed, ...variables.filter((it) => !taken.has(it.key))].slice(0, MOST_BOXES);
    const others = more.filter(([address]) => !found.boxes.some((it) => holds(it, address))).map(([address, size]) => this.nameless(address, size));
    await this.read(found.rank, others, room);
    found.boxes.push(...others);
  }

  // Bytes that a request brings from elsewhere than a variable.
  nameless(address, size) {
    const name = this.names.label(address) ?? hex(address);
    return { key: `o ${address}`, name, note: counted(size, "byte"), address, size, type: undefined, of: undefined, isArea: false };
  }

  globals() {
    return this.names.program.globals.map((it) => {
      const size = this.types[it.type]?.size ?? 0;
      return { key: `g ${it.at}`, name: it.name, note: it.function === "" ? "" : `in ${it.function}`, address: it.at, size, type: it.type, isArea: false };
    });
  }

  locals(frames) {
    return this.names.locals(frames).filter((it) => it.where !== undefined).map((it) => {
      const size = this.types[it.type]?.size ?? 0;
      const box = { key: `l ${it.function} ${it.depth} ${it.name}`, name: it.name, note: `in ${it.function}`, size, type: it.type, isArea: false };
      return { ...box, address: it.where.address, bytes: it.where.bytes, pieces: it.where.pieces };
    });
  }

  // Reads what lies in memory, each with no more bytes than are shown.
  async read(rank, boxes, room) {
    for (const box of boxes) {
      if (box.pieces !== undefined) {
        box.bytes = joinedBytes(await Promise.all(box.pieces.map((it) => this.piece(rank, it, room))));
      }
      if (box.bytes === undefined) {
        const count = Math.max(0, Math.min(box.size, MOST_OF_BOX, room.left));
        box.bytes = await this.machine.bytes(rank, box.address, count);
        room.left -= count;
      }
    }
  }

  piece(rank, it, room) {
    const count = Math.max(0, Math.min(it.size, MOST_OF_BOX, room.left));
    room.left -= count;
    return it.bytes === undefined ? this.machine.bytes(rank, it.address, count) : Promise.resolve(it.bytes.slice(0, count));
  }

  // A registered area: by the variable that it is, or one that points to it, or the label there.
  area({ address, size }, number, variables) {
    const note = `area ${number}, ${counted(size, "byte")}`;
    const whole = variables.find((it) => it.address === address && it.size > 0);
    const box = { key: `a ${number} ${address}`, name: hex(address), note, address, size, type: undefined, of: undefined, isArea: true };
    if (whole !== undefined) {
      const type = this.types[whole.type];
      const isWhole = whole.size === size;
      return { ...box, key: whole.key, name: whole.name, ...(isWhole || type?.kind !== "array" ? { type: whole.type } : { of: type.of }), size: Math.max(size, isWhole ? size : 0) };
    }
    const around = this.names.global(address);
    if (around !== undefined && this.types[around.type]?.kind === "array") {
      return { ...box, name: `${around.name} + ${address - around.at}`, of: this.types[around.type].of };
    }
    const pointer = variables.find((it) => this.types[it.type]?.kind === "pointer" && it.bytes.length === 4 && numberIn(it.bytes) === address);
    if (pointer !== undefined) {
      return { ...box, name: pointer.name, note: `${note}, ${pointer.note || "global"}`, of: this.types[pointer.type].of };
    }
    return { ...box, name: this.names.label(address) ?? box.name };
  }

  // The blocks of the heap to which variables point and which are no areas.
  async pointed(rank, variables, known, room) {
    const found = [];
    for (const it of this.names.program.isBspcc ? variables : []) {
      const type = this.types[it.type];
      const address = type?.kind === "pointer" && it.bytes.length === 4 ? numberIn(it.bytes) : 0;
      const element = this.types[type?.of]?.size ?? 0;
      const isKnown = [...known, ...found].some((box) => holds(box, address));
      if (address >= HEAP_HEAD && element > 0 && !isKnown) {
        const asked = await this.block(rank, address);
        asked > 0 && found.push({ key: `p ${it.key}`, name: `${it.name}[]`, note: it.note, address, size: asked, type: undefined, of: type.of, isArea: false });
      }
    }
    await this.read(rank, found, room);
    return found;
  }

  // How much was asked for of the block of the heap at an address; 0 if none begins there.
  async block(rank, address) {
    const head = await this.machine.bytes(rank, address - HEAP_HEAD, HEAP_HEAD);
    if (head.length < HEAP_HEAD) {
      return 0;
    }
    const [size, asked] = [numberIn(head), numberIn(head.subarray(4))];
    if ((size & HEAP_USED) === 0 || asked > size) {
      return 0;
    }
    const behind = await this.machine.bytes(rank, address + asked, 4);
    return behind.length === 4 && numberIn(behind) === HEAP_BEHIND ? asked : 0;
  }

  async queue(rank) {
    const [head, ...lines] = (await this.machine.ask(`queue ${rank}`)).trim().split("\n");
    const [, count, bytes] = /^count (\d+) bytes (\d+)/.exec(head).map(Number);
    const messages = lines.slice(0, MOST_MESSAGES).map((line) => {
      const [, from, tag, payload] = /^from (\d+) tag (\S+) payload (\S+)/.exec(line);
      return { from: Number(from), tag: tag === "-" ? new Uint8Array(0) : unhexed(tag), payload: payload === "-" ? new Uint8Array(0) : unhexed(payload) };
    });
    return { count, bytes, messages };
  }
}

/** Whether an address lies in a box. @param {Box} box */
const holds = (box, address) => box.address !== undefined && box.address <= address && address < box.address + Math.max(box.size, 1);

const numberIn = (bytes) => new DataView(bytes.buffer, bytes.byteOffset, bytes.byteLength).getUint32(0, true);

function joinedBytes(pieces) {
  const all = new Uint8Array(sum(pieces.map((it) => it.length)));
  let at = 0;
  for (const it of pieces) {
    all.set(it, at);
    at += it.length;
  }
  return all;
}
