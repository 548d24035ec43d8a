// The moves: from stop to stop, by keys, buttons, the slider and links; what is shown at each.

const SPEEDS = [2000, 1000, 500, 200];
const MOST_LINE_STEPS = 2000;
// How many places of a rank are shown that are no variables, and from which requests bring bytes.
const MOST_SOURCES = 6;
// With more ranks, only the lines of those that have a column are looked for where they have called a function of the library.
const MOST_PLACES = 128;
// The most instructions of all ranks in a superstep whose stops are counted before anyone goes there.
const MOST_COUNTED = 300_000;

class Moves {
  /** @param {Machine} machine @param {Names} names @param {Stage} stage @param {Listing} listing @param {Costs} costs @param {any} program */
  constructor(machine, names, stage, listing, costs, program) {
    Object.assign(this, { machine, names, stage, listing, costs, program, looks: new Lately(40), from: 0, isBusy: false, wanted: undefined });
    this.boxes = new Boxes(machine, names);
    this.calls = machine.isRecorded ? new RecordedCalls(machine, names) : new Calls(machine, names);
    this.stops = new Stops(machine, this.calls);
    this.outputEnds = new Map([[0, 0]]);
    this.stop = this.stops.begin(0);
  }

  /** The ranks that have a column. */
  get shown() {
    const count = Math.min(this.machine.nodes, MOST_COLUMNS_OF_RANKS);
    const from = Math.min(this.from, this.machine.nodes - count);
    return Array.from({ length: count }, (_, k) => from + k);
  }

  /** Does what was asked for last, once what is being done is over or has given up. @param {() => Promise<Stop|undefined>} make a stop */
  async ask(make) {
    this.wanted = make;
    this.machine.leave();
    if (this.isBusy) {
      return;
    }
    this.isBusy = true;
    while (this.wanted !== undefined && !this.isGone) {
      const next = this.wanted;
      this.wanted = undefined;
      try {
        const stop = await next();
        stop !== undefined && (await this.show(stop));
        this.wanted === undefined && !this.isGone && (await this.countStops());
      } catch (error) {
        this.isGone || error instanceof Elsewhere || say(error.message, true);
      }
    }
    this.isBusy = false;
    document.documentElement.dataset.still = String(Number(document.documentElement.dataset.still ?? 0) + 1);
  }

  end() {
    this.isGone = true;
    this.machine.end();
  }

  /** What all of the page shows of the machine at a place, the ranks with a column in full. Of each rank more is shown that is asked for. */
  async look(place, more) {
    const key = `${place.superstep} ${place.ticks} ${place.isOver} ${this.shown[0]} ${more.number}`;
    const known = this.looks.get(key);
    if (known !== undefined) {
      return known;
    }
    await this.machine.go(place);
    const looks = [];
    for (const rank of this.shown) {
      looks.push(await this.boxes.of(rank, more.of[rank] ?? []));
    }
    const places = this.machine.nodes === looks.length ? looks.map(placeOf) : await this.places(looks);
    return this.looks.set(key, { looks, places, output: await this.output(place) });
  }

  // Where all ranks are, of which only some are looked at in full.
  async places(looks) {
    const known = new Map(looks.map((it) => [it.rank, placeOf(it)]));
    const lines = (await this.machine.ask("where")).trim().split("\n");
    const found = [];
    for (const [rank, line] of lines.entries()) {
      const [, pc, state] = /pc (\S+) superstep \d+ state (.*)$/.exec(line);
      const at = parseInt(pc, 16);
      const place = lines.length <= MOST_PLACES && !known.has(rank) ? await this.calls.placeOf(await this.machine.node(rank)) : { ...NOWHERE, ...this.names.line(at) };
      found.push(known.get(rank) ?? { rank, pc: at, state, isRunning: state === "running", place });
    }
    return found;
  }

  // The output of the supersteps that are over, of which only the end is asked for again.
  async output(place) {
    const superstep = place.superstep + (place.isOver ? 1 : 0);
    if (!this.outputEnds.has(superstep)) {
      const known = Math.max(...[...this.outputEnds.keys()].filter((it) => it < superstep));
      const from = this.outputEnds.get(known);
      const reply = await this.machine.session.ask(`output ${from}`);
      this.outputEnds.set(superstep, from + reply.bytes.length - 1);
    }
    return this.outputEnds.get(superstep);
  }

  /** Where the machine stands at the stop before; of a long superstep where it begins. @param {Stop} stop @returns {Promise<Place|undefined>} */
  async placeBefore(stop) {
    if (stop.kind === "begin") {
      return stop.superstep > 0 ? this.machine.finish(stop.superstep - 1) : undefined;
    }
    const isLong = stop.kind !== "call" && this.calls.isLong(stop.superstep);
    return isLong ? this.machine.start(stop.superstep) : (await this.stops.beside(stop, -1))?.place;
  }

  // What is on its way at a stop.
  async requests(stop) {
    return stop.kind === "begin" && stop.superstep === 0 ? { arrows: [], landed: false, left: 0 } : this.stops.requests(stop);
  }

  /** @param {Stop} stop */
  async show(stop) {
    say("");
    const requests = await this.requests(stop);
    const before = await this.placeBefore(stop);
    const more = sourcesOf(requests);
    const old = before === undefined || !this.machine.has(before) ? undefined : await this.look(before, more);
    const offender = stop.kind === "over" || stop.superstep === this.machine.last ? await this.stops.offender() : undefined;
    requests.arrows.forEach((it) => (it.isWrong = offender !== undefined && it.call === offender));
    const [contested, exposed] = await this.marks(stop, requests);
    const now = await this.look(stop.place, more);
    this.stop = stop;
    this.draw({ stop, requests, old, now, contested, exposed, offender });
  }

  // The contested and the exposed bytes of the superstep whose requests wait or have landed.
  async marks(stop, requests) {
    if (stop.kind !== "barrier" && !requests.landed) {
      return [new Map(), new Map()];
    }
    const superstep = requests.landed ? stop.superstep - 1 : stop.superstep;
    return [await this.stops.contested(superstep), await this.stops.exposed(superstep)];
  }

  draw(seen) {
    const { stop, requests, old, now, contested, exposed, offender } = seen;
    this.seen = seen;
    const [sent, received] = this.bytes(stop, requests);
    this.stage.show(now, old, contested, exposed, requests.arrows, stop);
    this.stage.overview(now.places, stop, sent, received, this.shown, (rank) => this.choose(rank));
    const call = stop.call ?? (stop.kind === "over" ? offender : undefined);
    document.querySelector("main").className = this.shown.length > 8 ? "many" : "";
    this.listing.show(now.places, call && { ...call.place, isWrong: call === offender });
    this.costs.show(stop, sent, received, this.shown);
    const text = new TextDecoder().decode(this.machine.output.subarray(Math.max(0, now.output - MOST_SHOWN_OUTPUT), now.output));
    $("output").textContent = text === "" ? "Nothing yet." : text;
    $("output").scrollTop = $("output").scrollHeight;
    this.tell(seen);
    this.traffic();
    this.showStops();
    this.arrowsAgain();
    this.buttons();
    this.linkAgain();
  }

  /** Has the address lead to what is shown now. */
  linkAgain() {
    history.replaceState(null, "", `#${this.link()}`);
  }

  /** Writes who sends how much to whom, if that is open. */
  traffic() {
    const { requests } = this.seen;
    const isCounted = !(requests.superstep === this.machine.last && this.machine.outcome.startsWith("refused"));
    $("traffic").open && $("traffic-table").replaceChildren(...trafficTable(requests.arrows, this.machine.nodes, this.shown, isCounted));
    $("traffic-note").textContent = requests.left > 0 ? `Without ${counted(requests.left, "more request")}.` : "";
  }

  /** Draws the arrows where things are now: all, none, or those from and to one rank. */
  arrowsAgain() {
    const { requests } = this.seen;
    const choice = $("arrows").value;
    const isWanted = (it) => choice === "all" || it.from === Number(choice) || it.to === Number(choice);
    const wanted = requests.arrows.filter((it) => choice !== "none" && isWanted(it) && this.shown.includes(it.from) && this.shown.includes(it.to));
    this.stage.frame(wanted, requests.landed);
    this.stage.arrows.show(wanted, requests.landed);
    this.stage.heads.forEach((head, rank) => head.classList.toggle("chosen", String(rank) === choice));
    const hidden = requests.arrows.length - wanted.length + requests.left;
    $("hidden-arrows").textContent = hidden > 0 ? `${counted(hidden, "more request")} ${hidden === 1 ? "is" : "are"} not drawn.` : "";
  }

  /** Finds how many stops the superstep has, unless that takes long, for the slider from stop to stop. */
  async countStops() {
    const { superstep } = this.stop;
    const isShort = sum(this.machine.supersteps[superstep].w) <= MOST_COUNTED || this.calls.known.get(superstep) !== undefined;
    this.list = isShort ? await this.stops.list(superstep) : undefined;
    this.showStops();
  }

  // The place of this stop among those of its superstep.
  showStops() {
    const list = this.list?.[0].superstep === this.stop.superstep ? this.list : undefined;
    const isHere = (it) => (it.kind === this.stop.kind && (it.kind !== "call" || it.at === this.stop.at)) || (this.stop.kind === "line" && reaches(it.place, this.stop.place));
    const at = (list ?? []).reduce((found, it, k) => (isHere(it) ? k : found), 0);
    $("stop").disabled = list === undefined;
    $("stop").max = String(Math.max(1, (list?.length ?? 0) - 1));
    $("stop").value = String(at);
    $("stop").setAttribute("aria-valuetext", $("what").textContent);
    $("stop-number").textContent = list === undefined ? `in superstep ${this.stop.superstep}` : `${at + 1} of ${list.length} in superstep ${this.stop.superstep}`;
  }

  // The bytes that each rank has sent and received in the superstep so far, without those to itself.
  bytes(stop, requests) {
    const it = this.machine.supersteps[stop.superstep];
    const none = new Array(this.machine.nodes).fill(0);
    if (stop.kind === "begin") {
      return [none, none];
    }
    if (stop.kind !== "call" && stop.kind !== "line") {
      return [it.sent, it.received];
    }
    const [sent, received] = [[...none], [...none]];
    for (const arrow of requests.arrows.filter((other) => other.from !== other.to)) {
      const bytes = arrow.bytes + (arrow.call.request.tagBytes ?? 0);
      sent[arrow.from] += bytes;
      received[arrow.to] += bytes;
    }
    return [sent, received];
  }

  /** Says what the stop is. */
  tell({ stop, requests, offender, contested, exposed }) {
    $("what").textContent = sentence(this, stop, requests);
    $("asked").replaceChildren(...listed(requests, this.stage, this.seen.now));
    const parts = [];
    if (contested.size > 0) {
      parts.push(`Contested bytes: ${sum([...contested.values()].map((it) => it.size))}, to which requests bring different values. BSPlib leaves open which one lands last.`);
    }
    if (exposed.size > 0) {
      parts.push(`Exposed bytes: ${sum([...exposed.values()].map((it) => it.size))}, which one request reads and another one writes. BSPlib leaves open which comes first.`);
    }
    if (stop.kind === "over" && this.machine.outcome !== "ended") {
      parts.push(...mistakeTexts(this, offender));
    }
    $("notes").replaceChildren(...parts.map((it) => made("p", "", it)));
    $("superstep").value = String(stop.superstep);
    $("superstep").setAttribute("aria-valuetext", `superstep ${stop.superstep} of ${this.machine.last}`);
  }

  buttons() {
    const { stop } = this;
    const isFirst = stop.superstep === 0 && stop.kind === "begin";
    const isOver = stop.kind === "over";
    for (const id of ["first", "superstep-back", "back"]) {
      $(id).disabled = isFirst;
    }
    for (const id of ["last", "superstep-on", "on"]) {
      $(id).disabled = isOver;
    }
    $("line-on").disabled = isOver || this.machine.isRecorded;
  }

  choose(rank) {
    this.from = rank;
    return this.ask(async () => this.stop);
  }

  /** To the stop behind this one, or the one before it. */
  beside(direction) {
    return this.ask(() => this.stops.beside(this.stop, direction));
  }

  /** To where the next superstep begins, or this one, or the one before it. */
  superstep(direction) {
    return this.ask(async () => {
      const { superstep, kind } = this.stop;
      const target = direction > 0 ? superstep + 1 : kind === "begin" ? superstep - 1 : superstep;
      return target > this.machine.last ? this.stops.over : this.stops.begin(Math.max(0, target));
    });
  }

  /** To where all ranks wait, or from there to where the next superstep begins. */
  half() {
    return this.ask(async () => {
      const { superstep, kind } = this.stop;
      if (kind !== "barrier" && kind !== "over" && this.stops.isBarrier(superstep)) {
        return this.stops.barrier(superstep);
      }
      return superstep < this.machine.last ? this.stops.begin(superstep + 1) : this.stops.over;
    });
  }

  to(stop) {
    return this.ask(async () => stop);
  }

  /** A line of the source further with the chosen rank, or with the next one of all. */
  line() {
    return this.ask(async () => {
      if (this.machine.isRecorded) {
        return this.waits("A record has no stops line by line.");
      }
      const choice = $("line-rank").value;
      await this.machine.go(this.stop.place);
      const rank = choice === "all" ? await this.nextRunning() : Number(choice);
      return rank === undefined ? this.waits("No rank runs: all wait or have stopped.") : this.lineOf(rank);
    });
  }

  waits(text) {
    say(text);
    return undefined;
  }

  async nextRunning() {
    const lines = (await this.machine.ask("where")).trim().split("\n");
    const running = lines.map((line, rank) => (line.endsWith("running") ? rank : -1)).filter((it) => it >= 0);
    const last = this.stop.kind === "line" ? this.stop.rank : -1;
    return running.find((it) => it > last) ?? running[0];
  }

  async lineOf(rank) {
    const { machine, names } = this;
    const begun = machine.begun[machine.here.superstep][rank];
    const look = await this.boxes.of(rank, []);
    if (look.node.state !== "running") {
      return this.waits(`Rank ${rank} does not run: it waits, or it has stopped.`);
    }
    const frames = names.frames(look.node, wordIn(await machine.bytes(rank, look.node.x[SP], 4096), look.node.x[SP]));
    const points = pointsBehind(names, frames);
    await machine.disarm();
    for (const it of points) {
      await machine.ask(`break ${rank} ${it}`);
    }
    const first = names.line(look.node.pc);
    let node = look.node;
    for (let k = 0; k < MOST_LINE_STEPS; k++) {
      await machine.ask(points.length > 0 ? `go ${rank} ${ALL}` : `step ${rank} 1`);
      node = await machine.node(rank);
      const line = names.line(node.pc);
      if (node.state !== "running" || line === undefined ? node.state !== "running" || points.length === 0 : line.line !== first?.line || line.file !== first?.file) {
        break;
      }
    }
    for (const it of points) {
      await machine.ask(`clear ${rank} ${it}`);
    }
    machine.here.ticks[rank] = node.ticks - begun;
    return { superstep: machine.here.superstep, at: Infinity, kind: "line", rank, place: { ...machine.here, ticks: [...machine.here.ticks] } };
  }

  /** The stop as a part of an address, with the settings if they are not the page's own. */
  link() {
    const { superstep, kind, at, place } = this.stop;
    const text = { begin: `${superstep}`, call: `${superstep}.${at}`, barrier: `${superstep}.end`, over: "over", line: `${superstep}:${place.ticks.join(",")}` }[kind];
    const own = this.program.settings;
    const now = { nodes: this.machine.settings.nodes, g: this.costs.g, l: this.costs.l };
    const changed = Object.keys(now).filter((it) => String(now[it]) !== String(own[it])).map((it) => `&${it}=${now[it]}`);
    return `${text}${changed.join("")}${this.from > 0 ? `&from=${this.from}` : ""}${this.stage.view.link()}`;
  }

  /** The stop that a link names. @param {string} text */
  async linked(text) {
    const [stop] = text.split("&");
    this.stage.view.follow(text);
    this.from = Math.max(0, Math.min(Number(/&from=(\d{1,5})(?:&|$)/.exec(text)?.[1] ?? 0), this.machine.nodes - this.shown.length));
    const found = /^(\d+)(?:\.(\d+|end)|:([\d,]+))?$/.exec(stop);
    const superstep = Number(found?.[1] ?? 0);
    if (stop === "over") {
      return this.stops.over;
    }
    if (found === null || superstep > this.machine.last) {
      return this.stops.begin(0);
    }
    if (found[2] === "end") {
      return this.stops.barrier(superstep);
    }
    if (found[2] !== undefined) {
      return (await this.stops.list(superstep)).find((it) => it.at === Number(found[2])) ?? this.stops.begin(superstep);
    }
    return found[3] === undefined ? this.stops.begin(superstep) : this.placed(superstep, found[3].split(",").map(Number));
  }

  placed(superstep, ticks) {
    const { w } = this.machine.supersteps[superstep];
    const isRight = ticks.length === w.length && ticks.every((it, rank) => it <= w[rank]);
    return isRight ? { superstep, at: Infinity, kind: "line", rank: 0, place: { superstep, ticks, isOver: false } } : this.stops.begin(superstep);
  }
}

// From where the requests of a superstep bring bytes, and where gets bring them, by ranks. The number is another one for each superstep.
function sourcesOf(requests) {
  const of = [];
  for (const call of requests.calls ?? []) {
    const { kind, bytes, into } = call.request ?? { bytes: 0 };
    const address = kind === "get" ? into : kind === "put" ? call.a[1] : call.a[2];
    const known = (of[call.rank] ??= []);
    if (bytes > 0 && address !== undefined && known.length < MOST_SOURCES && !known.some(([at, size]) => at <= address && address < at + size)) {
      known.push([address, bytes]);
    }
  }
  return { number: requests.superstep ?? -1, of };
}

const placeOf = (look) => ({ rank: look.rank, pc: look.node.pc, state: look.node.state, isRunning: look.node.state === "running", place: look.place });

// Where a step by a line may end: at the other lines of the functions that are called, where they go on, and where other functions begin.
function pointsBehind(names, frames) {
  const functions = new Set(frames.map((it) => names.function(it.pc)?.[0]));
  const own = names.starts.filter((it) => functions.has(names.function(it)?.[0]));
  const begins = names.starts.filter((it) => names.function(it)?.[0] === it);
  const returns = frames.slice(1).map((it) => it.pc + 2);
  return [...new Set([...returns, ...begins, ...own])].slice(0, 900);
}
