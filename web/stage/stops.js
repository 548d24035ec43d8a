// The stops of a run: where each superstep begins, each call in it, where all ranks wait, and where the run is over. And what is on its way
// between ranks at a stop.

/**
 * A stop: `kind` is begin, call, barrier, over or line; `at` counts the stops of the superstep.
 * @typedef {{superstep: number, at: number, kind: string, place: Place, call?: Call, rank?: number}} Stop
 */

// Of a put in a long superstep nobody has looked what it brings.
const NOTHING_BROUGHT = new Uint8Array(0);

// The most bytes of a superstep that are marked as exposed.
const MOST_EXPOSED = 4096;

/** Whether BSPlib leaves open which of two calls comes first at a byte that one reads and the other writes, as docs/manual/portable.md has it. */
function isOpen(reader, writer) {
  const isUnbuffered = (it) => it.call.number === HPPUT || it.call.number === HPGET;
  if (!isUnbuffered(writer)) {
    return isUnbuffered(reader);
  }
  const readsAtCall = reader.call.number === PUT || reader.call.number === SEND;
  return !(readsAtCall && reader.call.rank === writer.call.rank && reader.call.request.number < writer.call.request.number);
}

class Stops {
  /** @param {Machine} machine @param {Calls} calls */
  constructor(machine, calls) {
    Object.assign(this, { machine, calls, contests: new Lately(8), exposures: new Lately(8) });
  }

  /** Where a superstep begins, which needs no trace. @returns {Stop} */
  begin(superstep) {
    return { superstep, at: 0, kind: "begin", place: this.machine.start(superstep) };
  }

  /** @returns {Stop} */
  get over() {
    return { superstep: this.machine.last, at: Infinity, kind: "over", place: this.machine.over };
  }

  /** @returns {Stop} */
  barrier(superstep) {
    return { superstep, at: Infinity, kind: "barrier", place: this.machine.finish(superstep) };
  }

  /** Whether all ranks of a superstep wait for an exchange, which may then be refused. */
  isBarrier(superstep) {
    return this.machine.supersteps[superstep].states.every((it) => it === "synced");
  }

  /** All stops of a superstep. @returns {Promise<Stop[]>} */
  async list(superstep) {
    const { calls } = await this.calls.of(superstep);
    const { w } = this.machine.supersteps[superstep];
    const stops = [this.begin(superstep)];
    calls.forEach((call, k) => {
      const ticks = w.map((it, rank) => (rank < call.rank ? it : rank === call.rank ? Math.min(call.before + 1, it) : 0));
      stops.push({ superstep, at: k + 1, kind: "call", place: { superstep, ticks, isOver: false }, call });
    });
    if (this.isBarrier(superstep)) {
      stops.push({ ...this.barrier(superstep), at: calls.length + 1 });
    }
    if (superstep === this.machine.last) {
      stops.push({ ...this.over, at: stops.length });
    }
    return stops;
  }

  /** The stop behind another one, and the one before it; nothing at the ends. @param {Stop} stop @param {number} direction 1 or -1 */
  async beside(stop, direction) {
    const list = await this.list(stop.superstep);
    const at = direction > 0 ? list.findIndex((it) => !reaches(it.place, stop.place) || it.at > stop.at) : -1;
    if (direction > 0) {
      return list[at] ?? (stop.superstep < this.machine.last ? this.begin(stop.superstep + 1) : undefined);
    }
    const before = list.filter((it) => (stop.kind === "line" ? reaches(it.place, stop.place) && !isSame(it.place, stop.place) : it.at < stop.at));
    if (before.length > 0) {
      return before[before.length - 1];
    }
    return stop.superstep > 0 ? (await this.list(stop.superstep - 1)).pop() : undefined;
  }

  /** The requests that are on their way at a stop, or that have landed there. */
  async requests(stop) {
    const landed = stop.kind === "begin" && stop.superstep > 0;
    const superstep = landed ? stop.superstep - 1 : stop.superstep;
    const isInside = stop.kind === "call" || stop.kind === "line";
    const trace = isInside ? await this.calls.of(superstep) : await this.calls.asked(superstep);
    const asked = trace.calls.filter((it) => it.request !== undefined && (landed || it.before < stop.place.ticks[it.rank]));
    const arrows = asked.map((it) => arrowOf(it, trace.areas));
    landed && numberMessages(arrows);
    const now = arrows.find((it) => stop.kind === "call" && it.call === stop.call);
    now !== undefined && (now.isNow = true);
    return { arrows, landed, left: trace.left, areas: trace.areas, calls: trace.calls, superstep };
  }

  /** The call that had the run refused or faulted, as far as the outcome names it. @returns {Promise<Call|undefined>} */
  async offender() {
    const { outcome, last } = this.machine;
    const fault = /^rank (\d+) stopped: (?!exhausted)/.exec(outcome);
    const request = /^refused: OutsideArea rank (\d+) request (\d+)/.exec(outcome);
    if (fault === null && request === null) {
      return undefined;
    }
    const { calls } = await this.calls.of(last);
    const own = calls.filter((it) => it.rank === Number((fault ?? request)[1]));
    return request ? own.find((it) => it.request?.number === Number(request[2])) : own.find((it) => it.before + 1 === this.machine.supersteps[last].w[it.rank]);
  }

  /** The bytes to which two requests of a superstep bring different values, by ranks: a set of addresses for each. */
  async contested(superstep) {
    return this.contests.get(superstep) ?? this.contests.set(superstep, await this.findContested(superstep));
  }

  /** The bytes that one request reads and another one writes, if BSPlib leaves open which comes first: by ranks, a set of addresses for each. */
  async exposed(superstep) {
    return this.exposures.get(superstep) ?? this.exposures.set(superstep, await this.findExposed(superstep));
  }

  async findExposed(superstep) {
    const found = new Map();
    const { calls, areas } = await this.calls.asked(superstep);
    const arrows = calls.filter((it) => it.request !== undefined).map((it) => arrowOf(it, areas));
    const isUnbuffered = (it) => it.call.number === HPPUT || it.call.number === HPGET;
    let left = MOST_EXPOSED;
    for (const one of arrows.filter(isUnbuffered)) {
      for (const other of arrows) {
        const pairs = isUnbuffered(other) && other.call !== one.call ? [[one, other]] : [[one, other], [other, one]];
        for (const [reader, writer] of pairs) {
          left = addExposed(found, reader, writer, left);
        }
      }
    }
    return found;
  }

  async findContested(superstep) {
    const found = new Map();
    const { calls, areas } = await this.calls.asked(superstep);
    const arrows = calls.filter((it) => it.request !== undefined && it.request.kind !== "message").map((it) => arrowOf(it, areas));
    const overlapping = arrows.filter((it) => it.lands !== undefined && arrows.some((other) => other !== it && other.to === it.to
      && other.lands < it.lands + it.bytes && it.lands < other.lands + other.bytes));
    if (overlapping.length === 0) {
      return found;
    }
    await this.machine.go(this.machine.finish(superstep));
    const values = new Map();
    for (const it of overlapping) {
      const bytes = it.kind === "get" ? await this.machine.bytes(it.from, it.begins, Math.min(it.bytes, MOST_BROUGHT)) : it.call.brings ?? NOTHING_BROUGHT;
      bytes.forEach((byte, k) => {
        const key = `${it.to} ${it.lands + k}`;
        const other = values.get(key);
        if (other !== undefined && other !== byte) {
          found.set(it.to, (found.get(it.to) ?? new Set()).add(it.lands + k));
        }
        values.set(key, other ?? byte);
      });
    }
    return found;
  }
}

// Adds the bytes that two requests expose. One that brings bytes to where they are writes nothing for anyone. Answers how many more may come.
function addExposed(found, reader, writer, left) {
  const isInPlace = writer.from === writer.to && writer.begins === writer.lands;
  if (writer.lands === undefined || reader.begins === undefined || reader.from !== writer.to || isInPlace || !isOpen(reader, writer)) {
    return left;
  }
  const [start, end] = [Math.max(reader.begins, writer.lands), Math.min(reader.begins + reader.bytes, writer.lands + writer.bytes)];
  for (let at = start; at < end && left > 0; at++, left--) {
    found.set(writer.to, (found.get(writer.to) ?? new Set()).add(at));
  }
  return left;
}

// Messages come into a queue by the ranks of their senders, and then in the order of the calls, which is that of the trace.
function numberMessages(arrows) {
  const counts = new Map();
  for (const it of arrows.filter((arrow) => arrow.kind === "message")) {
    it.order = counts.get(it.to) ?? 0;
    counts.set(it.to, it.order + 1);
  }
}

/** From where to where a request brings bytes. @param {Call} call @param {any[][]} areas of each rank */
function arrowOf(call, areas) {
  const { kind, other, bytes, area, offset, into, tagBytes } = call.request;
  const there = area === undefined ? undefined : areas[other]?.[area];
  const place = there === undefined ? undefined : there.address + offset;
  if (kind === "get") {
    return { kind, from: other, to: call.rank, begins: place, lands: into, bytes, call };
  }
  const begins = kind === "put" ? call.a[1] : call.a[2];
  return { kind, from: call.rank, to: other, begins, lands: place, bytes, tag: tagBytes > 0 ? call.tag : undefined, call };
}
