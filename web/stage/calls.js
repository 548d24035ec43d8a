// The calls that ranks make in a superstep, in the machine's order: rank by rank, each up to where it stops by itself. And what of them is
// asked of other ranks, with the bytes that it brings.

const [END, SYNC, PUSH, POP, PUT, GET, HPPUT, HPGET, TAGSIZE, SEND, QSIZE, GETTAG, MOVE, ABORT, WRITE] =
  [1, 4, 5, 6, 7, 8, 9, 10, 11, 12, 13, 14, 15, 16, 17];
// The calls at which the page stops: those that only ask for a number of the machine, read the input or the clock are left out.
const STOPS = new Set([END, SYNC, PUSH, POP, PUT, GET, HPPUT, HPGET, TAGSIZE, SEND, QSIZE, GETTAG, MOVE, ABORT, WRITE]);
const CALLS = {
  [END]: ["bsp_end", []], [SYNC]: ["bsp_sync", []], [PUSH]: ["bsp_push_reg", ["*ident", "size"]], [POP]: ["bsp_pop_reg", ["*ident"]],
  [PUT]: ["bsp_put", ["pid", "*src", "*dst", "offset", "nbytes"]], [GET]: ["bsp_get", ["pid", "*src", "offset", "*dst", "nbytes"]],
  [HPPUT]: ["bsp_hpput", ["pid", "*src", "*dst", "offset", "nbytes"]], [HPGET]: ["bsp_hpget", ["pid", "*src", "offset", "*dst", "nbytes"]],
  [TAGSIZE]: ["bsp_set_tagsize", ["*tag_nbytes"]], [SEND]: ["bsp_send", ["pid", "*tag", "*payload", "payload_nbytes"]],
  [QSIZE]: ["bsp_qsize", ["*nmessages", "*accum_nbytes"]], [GETTAG]: ["bsp_get_tag", ["*status", "*tag"]],
  [MOVE]: ["bsp_move", ["*payload", "reception_nbytes"]], [ABORT]: ["bsp_abort", ["*text", "nbytes"]], [WRITE]: ["write", ["*bytes", "count"]],
};
const REQUESTS = new Set([PUT, GET, HPPUT, HPGET, SEND]);
// Of one superstep, over all ranks; what is beyond is counted.
const MOST_CALLS = 4000;
// The bytes that are looked at of what a request brings.
const MOST_BROUGHT = 4096;
const MOST_TAG = 64;
// The instructions of all ranks in a superstep whose calls take a while to find. They are looked for in pieces of so many, and in no more
// pieces than these; in one in which nothing is asked for, other calls are not looked for, unless it is the last.
const LONG = 5_000_000;
const PIECE_OF_TRACE = 500_000;
const MOST_PIECES = 400;
const NOWHERE = { file: -1, line: 0, name: "", called: "" };

/**
 * A call: the rank, how many instructions it had made in the superstep before, its number and operands, where it stands in the source.
 * @typedef {{rank: number, before: number, number: number, a: number[], pc: number, place: any, brings?: Uint8Array, tag?: Uint8Array,
 *   request?: any}} Call
 */

/** The number of a word with a sign. */
const signed = (value) => value | 0;

/** The address of a put's or a get's area as its caller names it, or that of a message's payload. */
const operand = (call, name) => {
  const at = CALLS[call.number]?.[1].findIndex((it) => it.replace("*", "") === name) ?? -1;
  return at < 0 ? undefined : call.a[at];
};

/** The requests that a reply lists. @param {string} text */
function requestsOf(text) {
  return text.trim().split("\n").filter((it) => it !== "").map((line) => {
    const put = /^request (\d+) put to rank (\d+) area (\d+) offset (\d+) bytes (\d+)/.exec(line);
    const get = /^request (\d+) get from rank (\d+) area (\d+) offset (\d+) bytes (\d+) into ([0-9a-f]+)/.exec(line);
    const send = /^request (\d+) send to rank (\d+) bytes (\d+) tag bytes (\d+)/.exec(line);
    const found = put ?? get ?? send;
    const [number, other, third, offset, bytes] = found.slice(1, 6).map(Number);
    if (send) {
      return { kind: "message", number, other, bytes: third, tagBytes: Number(send[4]) };
    }
    return { kind: put ? "put" : "get", number, other, area: third, offset, bytes, into: get ? parseInt(get[6], 16) : undefined };
  });
}

/** The areas that a reply lists: address and size of each. */
function areasOf(text) {
  return [...text.matchAll(/^area (\d+) at ([0-9a-f]+) size (\d+)/gm)].map((it) => ({ address: parseInt(it[2], 16), size: Number(it[3]) }));
}

class Calls {
  /** @param {Machine} machine @param {Names} names */
  constructor(machine, names) {
    Object.assign(this, { machine, names, known: new Lately(8), light: new Lately(8) });
  }

  /**
   * The calls of a superstep, and the areas that are registered in it.
   * @returns {Promise<{calls: Call[], areas: any[][], left: number}>} `left` counts the calls that are not listed
   */
  async of(superstep) {
    return this.known.get(superstep) ?? this.known.set(superstep, await this.trace(superstep));
  }

  /** The same, but of a long superstep only what ranks have asked for in it: not from where, and by which line. */
  async asked(superstep) {
    const known = this.known.get(superstep);
    if (known !== undefined || !this.isLong(superstep)) {
      return known ?? this.of(superstep);
    }
    return this.light.get(superstep) ?? this.light.set(superstep, await this.lightTrace(superstep));
  }

  /** Whether it takes a while to find all calls of a superstep. */
  isLong(superstep) {
    return sum(this.machine.supersteps[superstep].w) > LONG && this.known.get(superstep) === undefined;
  }

  async lightTrace(superstep) {
    const { machine } = this;
    const found = { calls: [], areas: [], left: 0 };
    await machine.go(machine.finish(superstep));
    for (let rank = 0; rank < machine.nodes; rank++) {
      found.areas.push(areasOf(await machine.ask(`areas ${rank}`)));
      const requests = requestsOf(await machine.ask(`requests ${rank}`));
      const number = { put: PUT, get: GET, message: SEND };
      const room = Math.max(4, Math.floor(MOST_CALLS / machine.nodes));
      found.calls.push(...requests.slice(0, room).map((request) => ({ rank, before: -1, number: number[request.kind], a: [], pc: 0, place: NOWHERE, request })));
      found.left += Math.max(0, requests.length - room);
    }
    return found;
  }

  async trace(superstep) {
    const { machine } = this;
    const found = { calls: [], areas: [], left: 0 };
    const room = Math.max(4, Math.floor(MOST_CALLS / machine.nodes));
    await machine.go(machine.start(superstep));
    for (let rank = 0; rank < machine.nodes; rank++) {
      found.areas.push(areasOf(await machine.ask(`areas ${rank}`)));
      await this.traceRank(superstep, rank, room, found);
    }
    return found;
  }

  async traceRank(superstep, rank, room, found) {
    const { machine } = this;
    const steps = machine.supersteps[superstep].w[rank];
    const begun = machine.begun[superstep][rank];
    await machine.arm(rank, this.names.program.ecalls.slice(0, MOST_POINTS));
    const calls = [];
    const size = Math.max(PIECE_OF_TRACE, Math.ceil(steps / MOST_PIECES));
    let node = await machine.node(rank);
    while (node.state === "running" && calls.length <= room) {
      const end = node.ticks - begun + size;
      node = (await this.isQuiet(rank, size, steps - end)) ? await machine.node(rank) : await this.traceTo(rank, begun, end, room, calls);
      machine.here.ticks[rank] = node.ticks - begun;
      machine.tell(machine.here.ticks[rank] / steps);
    }
    const requests = await this.rest(rank, superstep, node);
    this.join(calls, requests);
    if (calls.length > room) {
      calls.pop();
      found.left += Math.max(requests.length - calls.filter((it) => it.request !== undefined).length, 1);
    }
    found.calls.push(...calls);
  }

  // Has a rank make so many instructions, if these are not all that are left and nothing is asked for by them: breakpoints would take long.
  async isQuiet(rank, size, left) {
    if (left <= 0) {
      return false;
    }
    const { machine } = this;
    const before = await machine.ask(`requests ${rank}`);
    const kept = Number((await machine.ask("keep")).split(" ")[1]);
    await machine.ask(`step ${rank} ${size}`);
    const isSame = before === (await machine.ask(`requests ${rank}`));
    isSame || (await machine.ask(`back ${kept}`));
    await machine.ask(`forget ${kept}`);
    return isSame;
  }

  // Has a rank go on from call to call, up to so many instructions in the superstep.
  async traceTo(rank, begun, end, room, calls) {
    const { machine, names } = this;
    let node = await machine.node(rank);
    let stands = names.ecalls.has(node.pc);
    while (node.state === "running" && node.ticks - begun < end) {
      if (stands && STOPS.has(node.x[17])) {
        calls.push(await this.callOf(node, begun));
      }
      if (calls.length > room) {
        break;
      }
      const moved = Number((await machine.ask(`go ${rank} ${end - (node.ticks - begun)}`)).split(" ")[1]);
      node = await machine.node(rank);
      stands = names.ecalls.has(node.pc);
      if (moved === 0) {
        break;
      }
    }
    return node;
  }

  // Has a rank go on to where it stops, and lists what it has asked for.
  async rest(rank, superstep, node) {
    const { machine } = this;
    if (node.state === "running") {
      await machine.ask(`step ${rank} ${ALL}`);
    }
    machine.here.ticks[rank] = machine.supersteps[superstep].w[rank];
    return requestsOf(await machine.ask(`requests ${rank}`));
  }

  async callOf(node, begun) {
    const a = node.x.slice(10, 15);
    const call = { rank: node.rank, before: node.ticks - begun, number: node.x[17], a, pc: node.pc, place: await this.placeOf(node), x: node.x };
    if (REQUESTS.has(call.number)) {
      const [from, count] = call.number === SEND ? [a[2], signed(a[3])] : [a[1], signed(a[4])];
      if (call.number !== GET && call.number !== HPGET) {
        call.brings = await this.machine.bytes(node.rank, from, Math.min(count, MOST_BROUGHT));
      }
      if (call.number === SEND) {
        call.tag = await this.machine.bytes(node.rank, a[1], Math.min(MOST_TAG, this.machine.settings.memory - a[1]));
      }
    }
    return call;
  }

  // The line from which a call is made, mostly by a function of the library.
  async placeOf(node) {
    const stack = await this.machine.bytes(node.rank, node.x[2], Math.min(512, this.machine.settings.memory - node.x[2]));
    return this.names.place(this.names.frames(node, wordIn(stack, node.x[2])));
  }

  // A call that was carried out has its request, which says what area it names and how long its tag is.
  join(calls, requests) {
    let at = 0;
    for (const call of calls) {
      if (REQUESTS.has(call.number) && at < requests.length) {
        call.request = requests[at++];
        call.tag = call.tag?.slice(0, call.request.tagBytes);
      }
    }
  }
}

/** Reads words of a rank's stack, of which some bytes are known. */
function wordIn(bytes, start) {
  const view = new DataView(bytes.buffer, bytes.byteOffset, bytes.byteLength);
  return (address) => (address >= start && address + 4 <= start + bytes.length ? view.getUint32(address - start, true) : undefined);
}

/** A call with its operands, as a sentence has it. @param {Call} call @param {(address: number, call: Call) => string} named */
function spelledCall(call, named) {
  const [name, operands] = CALLS[call.number] ?? [`call ${call.number}`, []];
  const texts = operands.map((it, k) => (it.startsWith("*") ? `${it.slice(1)} ${named(call.a[k], call)}` : `${it} ${signed(call.a[k])}`));
  return `${name}(${texts.join(", ")})`;
}
