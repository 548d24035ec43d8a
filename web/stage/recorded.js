// A run that was recorded as the page was written, for a browser that cannot run the machine: it answers what the debugger answered then.

class Recorded extends Machine {
  /** @param {any} record @param {Object<string, any>} settings */
  constructor(record, settings) {
    super(undefined, settings, () => {});
    this.record = record;
    this.note = record.left;
  }

  async begin() {
    const { record } = this;
    this.outcome = record.outcome;
    this.output = unhexed(record.output);
    this.read(record.profile);
    this.memories = Array.from({ length: this.nodes }, () => new Map());
    this.at = -1;
    this.armed = new Map();
    this.session = { ask: async (line) => ({ refused: false, text: this.answer(line), bytes: this.written(line) }), end: () => {} };
    await this.go(this.start(0));
  }

  get isRecorded() {
    return true;
  }

  /** The number of a place among those that are recorded, or -1. @param {Place} place */
  number(place) {
    return this.record.places.findIndex((it) => isSame(it, place));
  }

  has(place) {
    return this.number(place) >= 0;
  }

  async go(place) {
    const wanted = this.number(place);
    if (wanted < 0) {
      throw new Error("This stop was left out of the record.");
    }
    if (wanted < this.at) {
      this.memories.forEach((it) => it.clear());
      this.at = -1;
    }
    for (; this.at < wanted; this.at++) {
      this.record.places[this.at + 1].ranks.forEach(({ memory }, rank) => memory.forEach(([start, digits]) => this.store(rank, start, unhexed(digits))));
    }
    this.here = { ...place, ticks: [...place.ticks] };
  }

  // Memory is kept in blocks, as the record has it.
  store(rank, start, bytes) {
    for (let at = 0; at < bytes.length; at += BLOCK_OF_RECORD) {
      this.memories[rank].set(start + at, bytes.slice(at, at + BLOCK_OF_RECORD));
    }
  }

  async bytes(rank, address, count) {
    const found = new Uint8Array(Math.max(0, Math.min(count, this.settings.memory - address)));
    for (let k = 0; k < found.length; k++) {
      const at = address + k;
      found[k] = this.memories[rank].get(at - (at % BLOCK_OF_RECORD))?.[at % BLOCK_OF_RECORD] ?? 0;
    }
    return found;
  }

  answer(line) {
    const [verb, rank] = line.split(" ");
    const { ranks, superstep } = this.record.places[this.at];
    if (verb === "where") {
      return ranks.map((it) => nodeOf(it.regs)).map((it) => `rank ${it.rank} pc ${hex(it.pc)} superstep ${superstep} state ${it.state}`).join("\n");
    }
    return ranks[Number(rank)]?.[verb] ?? "";
  }

  // As much of the output as the finished supersteps have written. Only how much it is counts here.
  written(line) {
    const end = this.here.isOver ? this.output.length : this.record.supersteps[this.here.superstep]?.printed ?? 0;
    return new Uint8Array(Math.max(0, Math.min(end, this.output.length) - Number(line.split(" ")[1])) + 1);
  }
}

const BLOCK_OF_RECORD = 32;

class RecordedCalls extends Calls {
  isLong() {
    return false;
  }

  async trace(superstep) {
    const row = this.machine.record.supersteps[superstep];
    if (row === undefined) {
      return { calls: [], areas: [], left: 0 };
    }
    const calls = row.calls.map((it) => this.recorded(it));
    const requests = row.requests.map(requestsOf);
    const ranks = requests.map((_, rank) => calls.filter((it) => it.rank === rank));
    ranks.forEach((them, rank) => this.join(them, requests[rank]));
    const listed = calls.length > 0 ? calls : requests.flatMap((them, rank) => them.map((request) => this.nameless(rank, request)));
    return { calls: listed, areas: row.areas.map(areasOf), left: 0 };
  }

  nameless(rank, request) {
    return { rank, before: -1, number: { put: PUT, get: GET, message: SEND }[request.kind], a: [], pc: 0, place: NOWHERE, request };
  }

  recorded({ rank, before, regs, stack, brings, tag }) {
    const node = nodeOf(regs);
    const place = this.names.place(this.names.frames(node, wordIn(unhexed(stack), node.x[SP])));
    const call = { rank, before, number: node.x[17], a: node.x.slice(10, 15), pc: node.pc, place };
    return { ...call, brings: brings === undefined ? undefined : unhexed(brings), tag: tag === undefined ? undefined : unhexed(tag) };
  }
}
