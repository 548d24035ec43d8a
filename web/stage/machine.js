// The machine: one whole run for the profile and the outcome, and a session of the debugger that goes to any place of this run, forwards and
// back. All that the page shows comes from their answers.

/**
 * A place of a run: a superstep, the instructions that each rank has made in it, and whether the run is over.
 * @typedef {{superstep: number, ticks: number[], isOver: boolean}} Place
 */

/**
 * What the profile has of a superstep, by ranks.
 * @typedef {{w: number[], sent: number[], received: number[], requests: number[], states: string[], most: number, h: number}} Superstep
 */

// Instructions that are made in one go, between which the page can be told to go elsewhere; and after how many a state is kept.
const PIECE = 40_000_000;
const BETWEEN_KEPT = 2_000_000;
// The bytes of this host that states may take, and the most and the fewest of them.
const ROOM_FOR_STATES = 192 * 1024 * 1024;
const MOST_KEPT = 400;
const FEWEST_KEPT = 4;
const ALL = 2 ** 40;
// The bytes of lines after which another session is begun: the debugger takes 1 MiB of them.
const MOST_SAID = 400_000;
// The breakpoints that stay set; how many supersteps are gone through one by one; the instructions of all ranks in a superstep that is short,
// and how many are made by one `go`.
const MOST_POINTS = 900;
const FEW = 20;
const SHORT = 4_000;
const PIECE_OF_GO = 2_000_000;

/** The page was asked for something else meanwhile. */
class Elsewhere extends Error {}

/** The supersteps of a profile. @param {string} text @returns {Superstep[]} */
function superstepsOf(text) {
  const found = [];
  for (let at = text.indexOf("\n") + 1; at < text.length; ) {
    const end = text.indexOf("\n", at);
    const [superstep, rank, to, ticks, sent, received, , , requests, state] = text.slice(at, end).split(",");
    at = end + 1;
    if (to === "") {
      const k = Number(superstep);
      const row = (found[k] ??= { w: [], sent: [], received: [], requests: [], states: [], most: 0, h: 0 });
      row.w[rank] = Number(ticks);
      row.sent[rank] = Number(sent);
      row.received[rank] = Number(received);
      row.requests[rank] = Number(requests);
      row.states[rank] = state;
      row.most = Math.max(row.most, Number(ticks));
      row.h = Math.max(row.h, Number(sent), Number(received));
    }
  }
  return found;
}

/** A rank as a reply to `regs` shows it: pc, ticks since the run's start, state and registers. */
function nodeOf(text) {
  const head = /^rank (\d+) pc ([0-9a-f]{8}) ticks (\d+) state (.*)/.exec(text);
  const x = [...text.matchAll(/\bx\d+=([0-9a-f]{8})/g)].map((it) => parseInt(it[1], 16));
  return { rank: Number(head[1]), pc: parseInt(head[2], 16), ticks: Number(head[3]), state: head[4], x };
}

const sum = (numbers) => numbers.reduce((all, it) => all + it, 0);

/** Whether a machine that stands at one place comes to another one by going on. @param {Place} from @param {Place} to */
function reaches(from, to) {
  if (from.superstep !== to.superstep) {
    return from.superstep < to.superstep;
  }
  return (!from.isOver || to.isOver) && from.ticks.every((it, rank) => it <= to.ticks[rank]);
}

/** Whether two places are the same. @param {Place} a @param {Place} b */
const isSame = (a, b) => reaches(a, b) && reaches(b, a);

class Machine {
  /**
   * @param {any} bspemu the emulator
   * @param {Object<string, any>} settings as bspemu.js takes them
   * @param {(share: number) => void} tell is told how far a long way is gone
   */
  constructor(bspemu, settings, tell) {
    Object.assign(this, { bspemu, settings, tell, nodes: settings.nodes, wish: 0, kept: [], session: undefined });
    const state = this.nodes * ((settings.memory / 4096) * 16 + 1024);
    this.mostKept = Math.max(FEWEST_KEPT, Math.min(MOST_KEPT, Math.floor(ROOM_FOR_STATES / state)));
    this.control = new AbortController();
  }

  /** Runs the program once, and begins the session. */
  async begin() {
    const answer = await this.bspemu.run({ ...this.settings, profile: true, report: true, signal: this.control.signal });
    this.outcome = answer.outcome;
    this.output = answer.output;
    this.read(answer.profile);
    await this.connect();
  }

  get isRecorded() {
    return false;
  }

  /** Whether a place can be gone to. */
  has() {
    return true;
  }

  read(profile) {
    this.supersteps = superstepsOf(profile);
    this.begun = [new Array(this.nodes).fill(0)];
    for (const { w } of this.supersteps) {
      const last = this.begun[this.begun.length - 1];
      this.begun.push(w.map((it, rank) => last[rank] + it));
    }
  }

  async connect() {
    this.session?.end();
    this.session = await this.bspemu.debug(this.settings);
    this.said = 0;
    this.here = this.start(0);
    this.kept = [];
    this.armed = new Map();
    await this.keep();
  }

  /** Has a rank alone stop at these addresses from now on, as it goes on by `go`. @param {number} rank @param {number[]} points */
  async arm(rank, points) {
    if (this.armed.has(rank)) {
      return;
    }
    if ((this.armed.size + 1) * points.length > MOST_POINTS) {
      await this.disarm();
    }
    this.armed.set(rank, points);
    for (const it of points) {
      await this.ask(`break ${rank} ${it}`);
    }
  }

  async disarm() {
    for (const [rank, points] of this.armed) {
      for (const it of points) {
        await this.ask(`clear ${rank} ${it}`);
      }
    }
    this.armed.clear();
  }

  end() {
    this.control.abort();
    this.session?.end();
  }

  get last() {
    return this.supersteps.length - 1;
  }

  /** Where a superstep begins. @returns {Place} */
  start(superstep) {
    return { superstep, ticks: new Array(this.nodes).fill(0), isOver: false };
  }

  /** Where each rank has stopped by itself in a superstep. @returns {Place} */
  finish(superstep) {
    return { superstep, ticks: [...this.supersteps[superstep].w], isOver: false };
  }

  /** Where the run is over. @returns {Place} */
  get over() {
    return { ...this.finish(this.last), isOver: true };
  }

  /** The text that answers a line of the debugger. */
  async ask(line) {
    this.said += line.length + 1;
    const reply = await this.session.ask(line);
    if (reply.refused) {
      throw new Error(`${line}: ${reply.text.trim()}`);
    }
    return reply.text;
  }

  /** The bytes of a rank's memory; none if they do not lie in it. */
  async bytes(rank, address, count) {
    if (count <= 0 || address < 0 || address + count > this.settings.memory) {
      return new Uint8Array(0);
    }
    return unhexed(await this.ask(`bytes ${rank} ${address} ${count}`));
  }

  async node(rank) {
    return nodeOf(await this.ask(`regs ${rank}`));
  }

  /** How many instructions were made from the run's start up to a place. @param {Place} place */
  work(place) {
    return sum(this.begun[place.superstep]) + sum(place.ticks);
  }

  async keep() {
    const number = Number((await this.ask("keep")).split(" ")[1]);
    this.kept.push({ number, place: { ...this.here, ticks: [...this.here.ticks] }, work: this.work(this.here) });
    this.kept.sort((a, b) => a.work - b.work);
    if (this.kept.length > this.mostKept) {
      // The first one stays. Of the others that one goes whose neighbours are nearest to each other.
      let gone = 1;
      for (let k = 1; k < this.kept.length - 1; k++) {
        const gap = this.kept[k + 1].work - this.kept[k - 1].work;
        gone = gap < this.kept[gone + 1].work - this.kept[gone - 1].work ? k : gone;
      }
      await this.ask(`forget ${this.kept.splice(gone, 1)[0].number}`);
    }
  }

  /** Stands at a place then. A later call of `leave` has this one give up on its way. @param {Place} place */
  async go(place) {
    try {
      // A session takes no more than so many bytes of lines.
      if (this.said > MOST_SAID) {
        await this.connect();
      }
      await this.travel(place);
    } catch (error) {
      if (error.name !== "Refused" || this.mostKept === 1) {
        throw error;
      }
      // The states took what memory there was, or a session all the lines that it takes. Fewer states are kept from now on.
      this.mostKept = Math.max(1, this.mostKept >> 2);
      await this.connect();
      await this.travel(place);
    }
    this.tell(1);
  }

  /** Has a journey that is on its way end. */
  leave() {
    this.wish += 1;
  }

  async travel(place) {
    const wish = this.wish;
    await this.jump(place);
    const [from, to] = [this.work(this.here), this.work(place)];
    const goesOn = () => {
      if (wish !== this.wish) {
        throw new Elsewhere();
      }
      this.tell(to > from ? (this.work(this.here) - from) / (to - from) : 1);
    };
    while (this.here.superstep < place.superstep) {
      await this.nextSuperstep(place.superstep);
      await this.keepIfFar();
      goesOn();
    }
    for (let rank = 0; rank < this.nodes; rank++) {
      await this.advance(rank, place.ticks[rank], goesOn);
    }
    if (place.isOver && !this.here.isOver) {
      await this.ask("turn");
      this.here.isOver = true;
    }
    await this.keepIfFar();
  }

  /** Goes to the kept state from which the place is nearest, if that is nearer than from here. */
  async jump(place) {
    const near = this.kept.filter((it) => reaches(it.place, place)).pop();
    const isNear = reaches(this.here, place) && this.work(this.here) >= near.work;
    if (!isNear) {
      await this.ask(`back ${near.number}`);
      this.here = { ...near.place, ticks: [...near.place.ticks] };
    }
  }

  async keepIfFar() {
    const work = this.work(this.here);
    const nearest = this.kept.filter((it) => it.work <= work).pop();
    if (work - nearest.work >= BETWEEN_KEPT) {
      await this.keep();
    }
  }

  /** Comes to the next superstep, or to a later one if all up to there are short: `go` is slow, and two lines for each superstep are too. */
  async nextSuperstep(most) {
    const { superstep } = this.here;
    const from = this.work(this.here);
    const room = (target) => Math.min(PIECE_OF_GO, (target - superstep) * SHORT);
    const target = superstep + firstWhere(most - superstep, (k) => sum(this.begun[superstep + k + 1]) - from > room(superstep + k + 1));
    if (target - superstep < FEW) {
      await this.finishPhase();
      await this.ask("turn");
      this.here = this.start(superstep + 1);
      return;
    }
    await this.disarm();
    await this.ask(`break superstep ${target}`);
    await this.ask("go");
    await this.ask(`clear superstep ${target}`);
    this.here = this.start(target);
  }

  async finishPhase() {
    const { w } = this.supersteps[this.here.superstep];
    if (sum(w) - sum(this.here.ticks) < PIECE) {
      await this.ask("phase");
    } else {
      for (let rank = 0; rank < this.nodes; rank++) {
        await this.advance(rank, w[rank], () => this.tell(sum(this.here.ticks) / sum(w)));
      }
    }
  }

  /** Has a rank go on until it has made so many instructions in the superstep. */
  async advance(rank, ticks, goesOn) {
    while (this.here.ticks[rank] < ticks) {
      const count = Math.min(PIECE, ticks - this.here.ticks[rank]);
      await this.ask(`step ${rank} ${count}`);
      this.here.ticks[rank] += count;
      goesOn();
    }
  }
}
