// The program that is shown: an example, a text, an ELF file, or what a link holds.

// A text of one's own begins so.
const BEGINNING = `# Each rank writes a line with its number.

    li    a7, 3             # pid(): a0 is the number of this rank
    ecall
    addi  a0, a0, 48        # '0' + the number
    la    t0, digit
    sb    a0, 0(t0)
    la    a0, line
    li    a1, 7
    li    a7, 17            # write(line, 7)
    ecall
    li    a7, 4             # sync(): the superstep ends
    ecall
    li    a7, 1             # end()
    ecall

line:
    .ascii "rank "
digit:
    .ascii "0\\n"
`;
// What a link holds beside the program and the input.
const LINKED = ["nodes", "memory", "g", "l", "limit"];
// How the names of one's own programs begin in the list, and where the browser keeps them until the tab is closed.
const OWN = "own ";
const KEPT = "bspemu programs";
// With more ranks, the machine has to be large.
const MOST_RANKS = 1024;
// Statements of floating point. What stands before them is looked for in their line alone: of many empty lines each would be looked through to
// the end.
const FLOATS = /^[ \t]*(?:[\w.]+[ \t]*:[ \t]*)*(?:f[a-z]+\.|fl[wd]\b|fs[wd]\b|fs?csr\b|frcsr\b|f[rs]rm\b|f[rs]flags\b|csr)/m;

// Statements of extension A.
const ATOMICS = /^[ \t]*(?:[\w.]+[ \t]*:[ \t]*)*(?:lr|sc|amo[a-z]+)\.w/m;

const isExecutable = (bytes) => bytes[0] === 0x7f && bytes[1] === 0x45 && bytes[2] === 0x4c && bytes[3] === 0x46;

// Whether a program has instructions of F and D, and of A: what a text uses, and what an ELF file's flags and attributes say.
function unitsOf(image, text) {
  if (image === undefined) {
    return { float: FLOATS.test(text), atomic: ATOMICS.test(text) };
  }
  const said = /rv32[a-z]\d+p\d+\w*/.exec(new TextDecoder("latin1").decode(image));
  return { float: (image[36] & 6) !== 0, atomic: said !== null && /[_a-z]a\d+p\d+/.test(said[0].replace(/^rv32/, "_")) };
}

// The text in a file, if it is one that the page can take.
function textIn(name, bytes) {
  let text = "";
  try {
    text = new TextDecoder("utf-8", { fatal: true }).decode(bytes);
  } catch {
    throw new Error(`${name} is neither a text nor an executable.`);
  }
  if (text.includes("\0")) {
    throw new Error(`${name} is neither a text nor an executable.`);
  }
  if (/\.(?:c|h|cc|cpp)$/i.test(name) || IS_C.test(text)) {
    throw new Error(`${name}: ${WANTS_COMPILER}`);
  }
  return text;
}

class Program {
  constructor(editor, bspemu, examples, changed) {
    // What was written, changed or opened here is one's own: `at` says which of them is shown.
    Object.assign(this, { editor, bspemu, examples, changed, name: "", image: undefined, own: [], at: -1, timer: 0, isKept: true });
    editor.on("change", (_, change) => change.origin !== "setValue" && this.edited());
  }

  get text() {
    return this.editor.getValue();
  }

  get isText() {
    return this.image === undefined;
  }

  // What the emulator is asked for.
  settings() {
    const number = (id) => $(id).valueAsNumber;
    const numbers = { nodes: number("nodes"), memory: number("memory"), g: number("g"), l: number("l"), limit: number("limit") };
    const machine = { ...unitsOf(this.image, this.text), large: numbers.nodes > MOST_RANKS };
    return { ...numbers, ...machine, hostMemory: number("most"), image: this.image ?? this.text, input: $("input").value };
  }

  // The first change of an example makes a program of one's own of it. The example stays as it is.
  edited() {
    if (this.at < 0) {
      this.add(this.name === "" ? "my program" : `my ${this.name}`, {});
    }
    clearTimeout(this.timer);
    this.timer = setTimeout(() => this.keep(), 500);
  }

  // Adds what is shown to one's own programs.
  add(label, entry) {
    const others = this.own.filter((it) => it.base === label).length;
    this.at = this.own.push({ ...entry, name: this.name, base: label, label: others === 0 ? label : `${label} (${others + 1})` }) - 1;
    this.offerOwn(this.at);
    $("examples").value = OWN + this.at;
    this.keep();
  }

  offerOwn(number) {
    $("own").hidden = false;
    $("own").append(new Option(this.own[number].label, OWN + number));
  }

  // Keeps one's own programs and the settings, for when the page is loaded again in this tab.
  keep() {
    const entry = this.own[this.at];
    if (entry !== undefined) {
      entry.input = $("input").value;
      entry.text = this.isText ? this.text : undefined;
    }
    const numbers = Object.fromEntries([...LINKED, "most"].map((id) => [id, $(id).value]));
    try {
      sessionStorage.setItem(KEPT, JSON.stringify({ own: this.own, numbers, hash: location.hash, chosen: $("examples").value }));
      this.isKept = true;
    } catch {
      // There is no room for them, or the browser keeps nothing.
      if (this.isKept && this.own.length > 0) {
        say("The browser cannot keep your programs: save each before you close or load the page.", true);
      }
      this.isKept = this.own.length === 0;
    }
  }

  // Takes up what this tab has kept. Whether it shows the program of this address again.
  restore() {
    try {
      const kept = JSON.parse(sessionStorage.getItem(KEPT));
      this.own = kept.own;
      this.own.forEach((_, number) => this.offerOwn(number));
      if (kept.hash !== location.hash) {
        return false;
      }
      [...LINKED, "most"].forEach((id) => void ($(id).value = kept.numbers[id]));
      $("examples").value = kept.chosen;
      this.choose(kept.chosen);
      return true;
    } catch {
      this.own = [];
      return false;
    }
  }

  show(name, image, text, kind, source = "") {
    clearTimeout(this.timer);
    this.keep();
    this.at = -1;
    this.image = image;
    this.changed();
    this.name = name;
    this.editor.setOption("readOnly", !this.isText);
    this.editor.setOption("mode", this.isText ? "assembly" : "listing");
    this.editor.setValue(text);
    this.editor.clearHistory();
    $("kind").textContent = kind;
    $("source").hidden = source === "";
    $("source").open = source !== "";
    $("c").textContent = source;
    say("");
  }

  takeText(name, text) {
    this.show(name, undefined, text, "Assembly language. Change it as you like.");
  }

  takeElf(name, bytes, source = "") {
    const listing = this.bspemu.list(bytes, { ...unitsOf(bytes), hostMemory: $("most").valueAsNumber });
    this.show(name, bytes, listing, `${name}, compiled: its instructions, which you can step through.`, source);
  }

  async takeFile(file) {
    const bytes = new Uint8Array(await file.arrayBuffer());
    if (isExecutable(bytes)) {
      this.takeElf(file.name, bytes);
      this.add(file.name, { elf: textOf(bytes) });
    } else {
      this.takeText(file.name, textIn(file.name, bytes));
      this.add(file.name, {});
    }
  }

  choose(name) {
    this.keep();
    const number = name.startsWith(OWN) ? Number(name.slice(OWN.length)) : -1;
    const entry = this.own[number];
    if (entry !== undefined) {
      entry.elf === undefined ? this.takeText(entry.name, entry.text) : this.takeElf(entry.name, bytesOf(entry.elf));
      this.at = number;
      $("input").value = entry.input;
      return;
    }
    const example = this.examples[name];
    if (example === undefined) {
      this.takeText("", BEGINNING);
    } else if (example.elf === undefined) {
      this.takeText(name, example.text);
    } else {
      this.takeElf(name, bytesOf(example.elf), example.text);
    }
    $("input").value = example?.input ?? "";
  }

  // The names that can be chosen, those of texts first.
  offer() {
    const groups = { "Assembly language": [], "C, compiled": [] };
    for (const name of Object.keys(this.examples)) {
      groups[name.endsWith(".c") ? "C, compiled" : "Assembly language"].push(new Option(name, name));
    }
    const own = Object.assign(document.createElement("optgroup"), { id: "own", label: "Yours, until this tab is closed", hidden: true });
    $("examples").append(new Option("a new program", ""), own);
    for (const [label, options] of Object.entries(groups)) {
      const group = document.createElement("optgroup");
      group.label = label;
      group.append(...options);
      $("examples").append(group);
    }
  }

  async link() {
    const kept = { name: this.name, input: $("input").value };
    for (const id of LINKED) {
      kept[id] = $(id).value;
    }
    const elf = this.isText ? undefined : textOf(this.image);
    if (this.isText) {
      kept.text = this.text;
    } else if (this.examples[this.name]?.elf !== elf) {
      kept.elf = elf;
    }
    return `#${await toLink(kept)}`;
  }

  // Shows what a link holds, if anything. Nothing of it runs.
  async follow(code) {
    if (code === "") {
      return;
    }
    try {
      const kept = await fromLink(code);
      const name = String(kept.name ?? "");
      const label = `${name === "" ? "program" : name} of a link`;
      if (typeof kept.text === "string" && kept.text !== this.examples[name]?.text) {
        this.takeText(name, kept.text);
        this.add(label, {});
      } else if (typeof kept.elf === "string") {
        this.takeElf(name, bytesOf(kept.elf));
        this.add(label, { elf: kept.elf });
      } else {
        this.choose(name);
        $("examples").value = name;
      }
      for (const id of LINKED.filter((it) => /^\d+$/.test(kept[it]))) {
        $(id).value = kept[id];
      }
      $("input").value = String(kept.input ?? "");
      this.keep();
      say("This program came with the link. It runs when you choose Run or Step.");
    } catch {
      say("The link is damaged, so its program cannot be shown.", true);
    }
  }
}
