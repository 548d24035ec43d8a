// Runs: output while they go on, then what they cost.

const MOST_OUTPUT = 1 << 20;
const MOST_TABLE = 1000;
const MOST_PROFILED = 1024;

// The output, a part for each superstep that wrote something. It is text, whatever it holds.
class Output {
  constructor(place) {
    this.place = place;
    this.room = MOST_OUTPUT;
    this.decoder = new TextDecoder();
    place.replaceChildren();
  }

  append(bytes) {
    const text = this.decoder.decode(bytes, { stream: true });
    if (this.room <= 0) {
      return;
    }
    const part = document.createElement("div");
    part.textContent = text.slice(0, this.room).replace(/\n$/, "");
    this.room -= text.length;
    this.place.append(part);
    if (this.room <= 0) {
      this.note("There is more output than this page shows.");
    }
  }

  note(text) {
    this.place.append(Object.assign(document.createElement("div"), { className: "note", textContent: text }));
  }

  // The run is over.
  end() {
    this.place.hasChildNodes() || this.note("The program wrote nothing.");
  }
}

function costsOf(report) {
  const rows = [];
  for (const line of report.split("\n")) {
    const row = /^superstep (\d+): w (\d+) h (\d+)(?: m (\d+))?/.exec(line);
    if (row) {
      rows.push({ k: Number(row[1]), w: Number(row[2]), h: Number(row[3]), m: row[4] ?? "" });
    }
  }
  return { rows, total: BigInt(/^total (\d+)/m.exec(report)?.[1] ?? 0) };
}

// What the machine's words for the end of a run mean.
const ENDS = {
  Misaligned: "A jump leads to an odd address, or the address of an atomic instruction is no multiple of 4",
  FetchOutside: "The program goes on where there is no memory",
  IllegalInstruction: "There is no instruction here. Perhaps the program goes on after its last line: it has to end with call 1, end()",
  LoadOutside: "The address of this load is not in the memory of the rank",
  StoreOutside: "The address of this store is not in the memory of the rank",
  Break: "This instruction stops the rank",
  UnknownCall: "There is no call of the number in a7",
  RangeOutside: "The bytes that this call names are not in the memory of the rank",
  NotRegistered: "No area of this address is registered. A registration takes effect in the next superstep",
  BadRank: "There is no rank of this number",
  BadSize: "Tags can have 4,096 bytes at most",
  TooMuch: "This call asks for more than a rank may in a superstep",
  TagMismatch: "The ranks have set different sizes of tags",
  SlotMismatch: "The ranks did not register and remove the same areas in the same order",
  OutsideArea: "A put or a get goes past the end of its area",
  aborted: "The program called abort",
  exhausted: "It has made as many instructions as a rank may. Perhaps a loop does not end",
};
// A run that took longer is not made again to find the line at which it failed.
const MOST_SECONDS = 3;
const NO_MEMORY = "A run may take more if you change \"Most memory of this computer\".";

// What the end of a run in a superstep means, and where the ranks are that it names, if that is known.
function explained(outcome, superstep, places) {
  const at = (rank) => {
    const line = places[rank]?.line;
    return line === undefined ? "" : line < 0 ? " outside of the program" : ` at line ${line + 1}`;
  };
  const torn = /^desync: rank (\d+) ended, rank (\d+) synced/.exec(outcome);
  if (torn) {
    const [ended, waits] = [`rank ${torn[1]} ended${at(torn[1])}`, `rank ${torn[2]} waits${at(torn[2])} for the end of superstep ${superstep}`];
    return `desync: ${ended}, and ${waits}. All ranks have to call sync equally often.`;
  }
  const [, head, rank, name] = /^((?:rank (\d+) stopped|refused)): (?:fault )?(\w+)/.exec(outcome) ?? [];
  if (head === undefined) {
    return outcome;
  }
  const meaning = ENDS[name] ?? "This ends the run";
  return `${head} in superstep ${superstep}${rank === undefined ? "" : at(rank)}${outcome.slice(head.length)}. ${meaning}.`;
}

// The lines that the end of a run names.
function linesNamed(outcome, places) {
  const ranks = /^(?:rank|desync)/.test(outcome) ? [...outcome.matchAll(/rank (\d+)/g)].map((it) => it[1]) : [];
  return ranks.map((rank) => places[rank]?.line ?? -1).filter((line) => line >= 0);
}

// Whether a field has a number that cannot be used. The first of them is named and gets the focus.
function isWrong() {
  let first;
  for (const id of ["nodes", "g", "l", "memory", "limit", "most"]) {
    const field = $(id);
    field.setAttribute("aria-invalid", String(!field.checkValidity()));
    first ??= field.checkValidity() ? undefined : field;
  }
  if (first === undefined) {
    return false;
  }
  first.closest("details")?.setAttribute("open", "");
  first.focus();
  const step = Number(first.step) > 1 ? `, in steps of ${grouped(Number(first.step))}` : "";
  const name = first.labels[0].firstChild.textContent.trim();
  say(`${name}: this has to be a whole number from ${grouped(Number(first.min))} to ${grouped(Number(first.max))}${step}.`, true);
  return true;
}

// A row that says how many more there are than a table shows.
function restOf(count, columns, what) {
  if (count <= 0) {
    return [];
  }
  const row = document.createElement("tr");
  cell(row, `and ${grouped(count)} more ${what}`);
  row.firstChild.colSpan = columns;
  return [row];
}

// Where the output is below what the window shows, it comes into view.
function bringResult() {
  if ($("result").getBoundingClientRect().top > innerHeight - 120) {
    $("run").scrollIntoView({ block: "start" });
  }
}

function cell(row, text) {
  const made = document.createElement("td");
  made.textContent = text;
  row.append(made);
}

class Runs {
  constructor(program, bspemu) {
    Object.assign(this, { program, bspemu, control: undefined, settings: undefined, costs: undefined });
  }

  get isBusy() {
    return this.control !== undefined;
  }

  stop() {
    this.control?.abort();
  }

  async run() {
    if (this.isBusy || isWrong()) {
      return;
    }
    this.program.changed();
    $("result").hidden = false;
    $("costs").hidden = true;
    $("more").replaceChildren();
    const output = new Output($("output"));
    this.settings = this.program.settings();
    const began = performance.now();
    const answer = await this.make({ report: true, onOutput: (bytes) => output.append(bytes) });
    if (answer !== undefined) {
      const seconds = (performance.now() - began) / 1000;
      output.end();
      this.showCosts(answer.report);
      if (answer.status === 0) {
        say(`${answer.outcome} (${seconds < 1 ? `${Math.round(1000 * seconds)} ms` : `${seconds.toFixed(1)} s`}).`);
      } else {
        await this.explain(answer.outcome, seconds < MOST_SECONDS);
      }
    }
    bringResult();
  }

  // Says why a run failed, and marks the lines. The debugger goes the same way to find them.
  async explain(outcome, isShort) {
    const places = isShort && typeof WebAssembly.Suspending === "function" ? await this.places() : [];
    const hint = places.length > 0 ? "" : " Choose Step and then Go on to see where.";
    say(`${explained(outcome, this.costs.rows.length - 1, places)}${hint}`, true);
    linesNamed(outcome, places).reverse().forEach((line) => markBad(this.program.editor, line));
  }

  // Where the ranks are when the run is over, if nobody stops this.
  async places() {
    this.control = new AbortController();
    const { signal } = this.control;
    busy();
    let session;
    try {
      const lines = new Lines(this.program, this.bspemu);
      session = await this.bspemu.debug(this.settings);
      signal.throwIfAborted();
      signal.addEventListener("abort", () => session.end());
      await session.ask("go");
      return placesOf((await session.ask("where")).text, lines);
    } catch {
      return [];
    } finally {
      session?.end();
      this.control = undefined;
      busy();
    }
  }

  // Makes a run that can be stopped. What it answers, if it was not refused and not stopped.
  async make(more) {
    this.control = new AbortController();
    busy();
    say("It runs.");
    try {
      return await this.bspemu.run({ ...this.settings, ...more, signal: this.control.signal });
    } catch (error) {
      if (error.name === "AbortError") {
        say("You stopped it.");
      } else {
        showError(this.program.editor, error, this.program.isText);
        error.message === "no memory" && say(`no memory: the run needs more than ${$("most").value} MiB. ${NO_MEMORY}`, true);
      }
      return undefined;
    } finally {
      this.control = undefined;
      busy();
    }
  }

  showCosts(report) {
    this.costs = costsOf(report);
    const { rows, total } = this.costs;
    const [g, l] = [BigInt(this.settings.g), BigInt(this.settings.l)];
    $("costs").hidden = rows.length === 0;
    const ticks = total === 1n ? "1 tick" : `${grouped(total)} ticks`;
    const cut = rows.length > MOST_BARS ? ` The picture shows the first ${MOST_BARS} of them.` : "";
    $("total").textContent = `${rows.length === 1 ? "1 superstep costs" : `${grouped(rows.length)} supersteps cost`} ${ticks}: `
      + `the sum of w + g·h + l, with g = ${g} and l = ${l}.${cut}`;
    const made = rows.slice(0, MOST_TABLE).map(({ k, w, h, m }) => {
      const row = document.createElement("tr");
      [k, w, h, m, BigInt(w) + g * BigInt(h) + l].forEach((it) => cell(row, it === "" ? "" : grouped(BigInt(it))));
      return row;
    });
    $("rows").replaceChildren(...made, ...restOf(rows.length - MOST_TABLE, 5, "supersteps"));
    // The machine makes no profile of more ranks than that.
    $("profile").hidden = this.settings.nodes > MOST_PROFILED;
    $("picture").replaceChildren(costsPicture(rows, this.settings.g, this.settings.l));
  }

  // Runs the same once more for its profile, and draws that.
  async profile() {
    const [said, isError] = [$("status").textContent, $("status").className === "error"];
    const answer = await this.make({ report: true, profile: true });
    if (answer !== undefined) {
      say(isError ? said : "The timeline and the bytes are drawn below the costs.", isError);
      const supersteps = profileOf(answer.profile);
      const heading = (text) => Object.assign(document.createElement("h3"), { textContent: text });
      const { rows } = costsOf(answer.report);
      $("more").replaceChildren(
        heading(rows.length > MOST_BARS ? `Timeline of the first ${MOST_BARS} supersteps` : "Timeline"), timelinePicture(supersteps, rows, this.settings.g, this.settings.l),
        heading("Bytes from rank to rank"), bytesPicture(supersteps),
      );
    }
  }
}
