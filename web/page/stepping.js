// Stepping: a session of the debugger, forwards and back, with what each step changed.

const MOST_STATES = 400;
const MOST_PLACES = 256;
// How many bytes of memory are shown, and in a line of them.
const SHOWN_BYTES = 256;
const bytesInLine = () => (matchMedia("(max-width: 40rem)").matches ? 8 : 16);
// Whether registers are numbers with ten digits, and memory is words of that kind.
const isDecimal = () => $("base").value === "decimal";
const REGISTERS = "zero ra sp gp tp t0 t1 t2 s0 s1 a0 a1 a2 a3 a4 a5 a6 a7 s2 s3 s4 s5 s6 s7 s8 s9 s10 s11 t3 t4 t5 t6".split(" ");
// The labels of a line, and a line of a text that has no statement.
const LABELS = /^\s*((?:[A-Za-z_.][\w.]*\s*:\s*)*)/;
const EMPTY = /^\s*(?:[A-Za-z_.][\w.]*\s*:\s*)*(?:#.*)?$/;
// The most breakpoints that the debugger has, one for each rank and line.
const MOST_POINTS = 1024;
// How many registers that changed are named.
const MOST_NAMED = 4;
// After how many milliseconds a step says that it runs.
const SLOW = 300;
// How a line of a listing begins.
const LISTED = /^[0-9a-f]{8}: \S*\s*/;

const hex = (number) => number.toString(16).padStart(8, "0");

// The addresses of lines: of a listing as they are written there, and of a text as the assembler says. That is asked to put the addresses
// of labels, one for each line and one for the end, behind the image.
class Lines {
  constructor(program, bspemu) {
    const lines = program.text.split("\n");
    this.labels = new Map();
    if (program.isText) {
      this.ask(lines, bspemu, unitsOf(undefined, program.text));
    } else {
      this.addresses = lines.map((line) => (LISTED.test(line) ? parseInt(line.slice(0, 8), 16) : -1));
      this.end = Math.max(...this.addresses) + 4;
    }
  }

  ask(lines, bspemu, units) {
    const names = [...lines, ""].map((_, k) => `_line_${k}_`);
    const labelled = names.map((name, k) => `${name}: ${lines[k] ?? ""}`);
    for (let k = 0; k < names.length; k += 16) {
      labelled.push(`.word ${names.slice(k, k + 16).join(", ")}`);
    }
    const file = bspemu.assemble(`${labelled.join("\n")}\n`, units);
    const view = new DataView(file.buffer, file.byteOffset + file.length - 4 * names.length);
    const all = names.map((_, k) => view.getUint32(4 * k, true));
    this.end = all.pop();
    this.addresses = lines.map((line, k) => (EMPTY.test(line) ? -1 : all[k]));
    lines.forEach((line, k) => (LABELS.exec(line)[1].match(/[^\s:]+/g) ?? []).forEach((name) => this.labels.set(name, all[k])));
  }

  // The line whose statement has the instruction at an address, or -1. A statement can have two instructions.
  at(pc) {
    let found = -1;
    this.addresses.forEach((address, line) => {
      found = address >= 0 && address <= pc && (found < 0 || address >= this.addresses[found]) ? line : found;
    });
    return pc < this.end ? found : -1;
  }
}

// Where the ranks are, from an answer to \"where\". A rank that waits or has ended is still at the line of its call.
function placesOf(text, lines) {
  const known = new Map();
  return text.trim().split("\n").map((told) => {
    const [, rank, pc, superstep, state] = /^rank (\d+) pc (\S+) superstep (\d+) state (.*)$/.exec(told);
    const address = parseInt(pc, 16);
    const from = /^(?:synced|ended|aborted)$/.test(state) ? address - 4 : address;
    known.has(from) || known.set(from, lines.at(from));
    return { rank: Number(rank), pc: address, line: known.get(from), superstep, state };
  });
}

class Stepping {
  constructor(program, bspemu) {
    // Breakpoints are kept as the editor's lines, so they move with the text and are gone with it.
    Object.assign(this, { program, bspemu, points: new Set() });
    this.forget();
  }

  forget() {
    Object.assign(this, { session: undefined, lines: undefined, states: [], places: [], values: [], last: new Map(), isBusy: false, changes: "" });
  }

  get isOn() {
    return this.session !== undefined;
  }

  get rank() {
    return Number($("rank").value);
  }

  // The numbers of the lines that have breakpoints.
  get pointLines() {
    const numbers = [...this.points].map((it) => this.program.editor.getLineNumber(it));
    return new Set(numbers.filter((it) => it !== null));
  }

  async begin() {
    if (this.isBusy || isWrong()) {
      return;
    }
    this.program.changed();
    $("result").hidden = true;
    say("");
    this.isBusy = true;
    busy();
    try {
      const settings = this.program.settings();
      this.session = await this.bspemu.debug(settings);
      this.memory = settings.memory;
      this.lines = new Lines(this.program, this.bspemu);
      $("rank").replaceChildren(...Array.from({ length: settings.nodes }, (_, k) => new Option(String(k), String(k))));
      $("stepping").hidden = false;
      widenMarks(this.program.editor, true);
      this.program.editor.setOption("readOnly", true);
      for (const line of this.pointLines) {
        this.lines.addresses[line] >= 0 && (await this.point("break", line));
      }
      this.states = [await this.keep()];
      await this.look();
      this.isBusy = false;
      busy();
      $("step").focus();
      say(this.told());
    } catch (error) {
      this.end();
      showError(this.program.editor, error, this.program.isText);
    }
  }

  end() {
    this.session?.end();
    this.forget();
    $("stepping").hidden = true;
    widenMarks(this.program.editor, false);
    this.program.editor.setOption("readOnly", !this.program.isText);
    clearMarks(this.program.editor);
    showPlaces(this.program.editor, [], this.pointLines, -1);
    busy();
  }

  async ask(line) {
    const reply = await this.session.ask(line);
    if (reply.refused) {
      throw new Error(reply.text.trim());
    }
    return reply.text;
  }

  async keep() {
    return Number((await this.ask("keep")).split(" ")[1]);
  }

  // Does some work in the session, shows where that leads, and says it.
  async work(make, tell = () => this.told()) {
    if (!this.isOn || this.isBusy) {
      return;
    }
    this.isBusy = true;
    busy();
    const slow = setTimeout(() => say("It runs."), SLOW);
    try {
      const said = await make();
      await this.look();
      say(...[tell(said)].flat());
    } catch (error) {
      // Who stops stepping has ended the session.
      error.name === "AbortError" || say(error.message === "refused: Over" ? "The run is over. You can go back." : error.message, true);
    } finally {
      clearTimeout(slow);
    }
    this.isBusy = false;
    busy();
  }

  // Asks for some lines, and keeps the state that they lead to.
  advance(...lines) {
    return this.work(async () => {
      let said = "";
      for (const line of lines) {
        said = (await this.ask(line)).split("\n")[0];
      }
      this.states.push(await this.keep());
      if (this.states.length > MOST_STATES) {
        await this.ask(`forget ${this.states.splice(1, 1)[0]}`);
      }
      // The rank that stopped is the one to look at.
      const rank = /^(?:stopped at )?rank (\d+)/.exec(said)?.[1];
      $("rank").value = rank ?? $("rank").value;
      return said;
    }, (said) => this.toldOf(said));
  }

  back() {
    return this.work(async () => {
      if (this.states.length < 2) {
        return "This is the beginning.";
      }
      const gone = this.states.pop();
      await this.ask(`back ${this.states[this.states.length - 1]}`);
      await this.ask(`forget ${gone}`);
      return undefined;
    }, (said) => said ?? this.told());
  }

  // Sets or removes the breakpoint of all ranks at a line.
  async point(verb, line) {
    const ranks = $("rank").options.length;
    if (verb === "break" && ranks * (this.pointLines.size) > MOST_POINTS) {
      throw new Error(`There is room for ${grouped(MOST_POINTS)} breakpoints, and a line needs one for each rank.`);
    }
    for (let rank = 0; rank < ranks; rank++) {
      await this.ask(`${verb} ${rank} ${this.lines.addresses[line]}`);
    }
  }

  // Sets a breakpoint at a line, or removes it.
  toggle(line) {
    const { editor } = this.program;
    const handle = editor.getLineHandle(line);
    const hasNone = this.isOn ? (this.lines.addresses[line] ?? -1) < 0 : this.program.isText ? EMPTY.test(handle.text) : !LISTED.test(handle.text);
    if (hasNone) {
      say(`Line ${line + 1} has no instruction.`);
      return undefined;
    }
    const isSet = !this.points.has(handle);
    const change = () => void (isSet ? this.points.add(handle) : this.points.delete(handle));
    const said = `${isSet ? "There is a" : "There is no"} breakpoint at line ${line + 1}${isSet ? "" : " any more"}.`;
    if (!this.isOn) {
      change();
      showPlaces(editor, [], this.pointLines, -1);
      say(isSet ? `${said} Step and then Go on lead there.` : said);
      return undefined;
    }
    return this.work(async () => {
      change();
      try {
        await this.point(isSet ? "break" : "clear", line);
      } catch (error) {
        this.points.delete(handle);
        throw error;
      }
    }, () => said);
  }

  // The text of a line without its comment, to be read aloud.
  lineText(line) {
    const text = this.program.editor.getLine(line).replace(LISTED, "").replace(LABELS, "");
    return text.replace(/#.*/, "").trim().replace(/\s+/g, " ");
  }

  // Where the rank is that is looked at, and what changed in its registers.
  told() {
    const { line, state, superstep } = this.places[this.rank];
    const at = line < 0 ? "outside of the program" : `at line ${line + 1}`;
    const states = {
      running: `Rank ${this.rank} is ${at}${line < 0 ? "" : `, ${this.lineText(line)}`}.`,
      synced: `Rank ${this.rank} waits for the end of superstep ${superstep}, ${at}.`,
      ended: `Rank ${this.rank} has ended.`,
    };
    return `${states[state] ?? `Rank ${this.rank}, ${at}: ${state}.`}${this.changes}`;
  }

  // What an answer of the debugger means.
  toldOf(said) {
    if (/^moved 0$/.test(said)) {
      return `Rank ${this.rank} does not run: it waits for the others, or it is over.`;
    }
    if (/^(?:moved|turned)/.test(said)) {
      return this.told();
    }
    const place = this.places[this.rank];
    const isPoint = said.startsWith("stopped at rank");
    return isPoint ? `stopped at rank ${this.rank}, line ${place.line + 1}.` : [explained(said, place.superstep, this.places), said !== "ended"];
  }

  // Shows where the ranks are, and what one of them has.
  async look() {
    this.places = placesOf(await this.ask("where"), this.lines);
    const rows = this.places.slice(0, MOST_PLACES).map((it) => {
      const row = document.createElement("tr");
      [it.rank, it.line < 0 ? "" : it.line + 1, it.superstep, it.state, hex(it.pc)].forEach((text) => cell(row, text));
      row.className = it.rank === this.rank ? "chosen" : "";
      return row;
    });
    $("where").replaceChildren(...rows, ...restOf(this.places.length - MOST_PLACES, 5, "ranks"));
    showPlaces(this.program.editor, this.places, this.pointLines, this.rank);
    await this.lookAtRegisters();
    await this.lookAtMemory();
    $("written").textContent = (await this.ask("output")).slice(0, MOST_OUTPUT);
  }

  // What was shown of this rank the last time under a name, and keeps what is shown now.
  before(name, now) {
    const key = `${this.rank} ${name}`;
    const was = this.last.get(key) ?? [];
    this.last.set(key, now);
    return was;
  }

  async lookAtRegisters() {
    const said = await this.ask(`regs ${this.rank}`);
    this.values = [...said.matchAll(/\bx\d+=([0-9a-f]{8})/g)].map((it) => parseInt(it[1], 16));
    const was = this.before("registers", this.values);
    const changed = this.values.map((value, k) => was.length > 0 && was[k] !== value);
    $("registers").replaceChildren(...this.values.map((value, k) => {
      const made = document.createElement("span");
      made.textContent = `${`x${k}`.padEnd(3)} ${REGISTERS[k].padEnd(4)} ${isDecimal() ? value | 0 : hex(value)}`;
      made.className = changed[k] ? "changed" : "";
      return made;
    }));
    const names = this.values.flatMap((value, k) => (changed[k] ? [`${REGISTERS[k]} = ${value | 0}`] : []));
    const rest = names.length > MOST_NAMED ? ` and ${names.length - MOST_NAMED} more` : "";
    this.changes = names.length === 0 ? "" : ` Changed: ${names.slice(0, MOST_NAMED).join(", ")}${rest}.`;
  }

  // The address that a text names: a number, a register or a label.
  addressOf(text) {
    const register = /^x(\d+)$/.exec(text) ? Number(text.slice(1)) : REGISTERS.indexOf(text === "fp" ? "s0" : text);
    if (register >= 0) {
      return this.values[register];
    }
    const number = /^[0-9a-f]{8}$/i.test(text) ? parseInt(text, 16) : /^(?:0x[0-9a-f]+|\d+)$/i.test(text) ? Number(text) : undefined;
    return this.lines.labels.get(text) ?? number;
  }

  async lookAtMemory() {
    const from = this.addressOf($("address").value.trim());
    $("address").setAttribute("aria-invalid", String(from === undefined));
    if (from === undefined) {
      $("bytes").textContent = "This is no address. Write a number such as 256 or 0x100, a register such as s0, or a label of the program.";
      return;
    }
    if (from >= this.memory) {
      $("bytes").textContent = `This address is not in the memory, which ends at 0x${this.memory.toString(16)}.`;
      return;
    }
    const bytes = (await this.ask(`bytes ${this.rank} ${from} ${Math.min(SHOWN_BYTES, this.memory - from)}`)).trim().split(/\s+/);
    const was = this.before(`memory ${from}`, bytes);
    const shown = [];
    const [step, size] = [bytesInLine(), isDecimal() ? 4 : 1];
    for (let k = 0; k < bytes.length; k += size) {
      const part = bytes.slice(k, k + size);
      const made = document.createElement("span");
      made.textContent = size === 1 ? part[0] : String(parseInt([...part].reverse().join(""), 16) | 0).padStart(11);
      made.className = was.length > 0 && part.some((it, j) => was[k + j] !== it) ? "changed" : "";
      shown.push(k % step === 0 ? `${k === 0 ? "" : "\n"}${hex(from + k)}  ` : " ", made);
    }
    $("bytes").replaceChildren(...shown);
  }
}
