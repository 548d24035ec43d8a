// The sources, with a mark of each rank at the line where it is.

const NEAR = 8;
const MOST_INDENT = 24;

class Listing {
  /** @param {HTMLElement} frame @param {HTMLSelectElement} chooser @param {any[]} sources */
  constructor(frame, chooser, sources) {
    Object.assign(this, { frame, chooser, sources, shown: -1, rows: [] });
    chooser.replaceChildren(...sources.map((it, k) => new Option(it.name, String(k))));
    chooser.parentElement.hidden = sources.length < 2;
    chooser.onchange = () => {
      this.open(Number(chooser.value));
      this.mark();
    };
    this.places = [];
    this.open(0);
  }

  open(file) {
    if (file === this.shown || this.sources[file] === undefined) {
      return;
    }
    this.shown = file;
    this.chooser.value = String(file);
    this.rows = this.sources[file].text.replace(/\n$/, "").split("\n").map((text, k) => {
      const marks = made("span", "marks");
      const code = made("code", "", text === "" ? " " : text);
      // A long line goes on below itself, a little to the right of where it begins.
      const indent = Math.min(MOST_INDENT, /^\s*/.exec(text.replaceAll("\t", "    "))[0].length + 4);
      code.style.setProperty("--indent", `${indent}ch`);
      const row = made("div", "line", marks, made("span", "number", String(k + 1)), code);
      return Object.assign(row, { marks });
    });
    this.frame.replaceChildren(...this.rows);
  }

  /**
   * Marks the lines of ranks.
   * @param {{rank: number, place: any, isRunning: boolean}[]} places
   * @param {{file: number, line: number, isWrong: boolean}|undefined} call the line of the call that was made
   */
  show(places, call) {
    this.places = places;
    this.call = call;
    const file = call !== undefined && call.file >= 0 ? call.file : places.find((it) => it.place.file >= 0)?.place.file;
    file !== undefined && this.open(file);
    this.mark();
  }

  mark() {
    const at = new Map();
    for (const it of this.places.filter((place) => place.place.file === this.shown)) {
      at.set(it.place.line, [...(at.get(it.place.line) ?? []), it]);
    }
    this.rows.forEach((row, k) => {
      const ranks = at.get(k + 1) ?? [];
      const isCall = this.call?.file === this.shown && this.call.line === k + 1;
      row.className = `line${this.isFar(k + 1, at) ? " far" : ""}${ranks.length > 0 ? " here" : ""}${isCall ? (this.call.isWrong ? " call wrong" : " call") : ""}`;
      row.marks.replaceChildren(...markOf(ranks));
      row.marks.title = ranks.map((it) => `rank ${it.rank}: ${it.state}`).slice(0, 32).join("\n");
    });
    const first = this.call?.file === this.shown ? this.call.line : Math.min(...at.keys());
    Number.isFinite(first) && this.scroll(this.rows[first - 1]);
  }

  // Whether a line is far from all that is marked, so that a printed page does without it.
  isFar(line, at) {
    const marked = [...at.keys(), ...(this.call?.file === this.shown ? [this.call.line] : [])];
    return marked.length > 0 && !marked.some((it) => Math.abs(it - line) <= NEAR);
  }

  scroll(row) {
    const [top, height] = [row?.offsetTop ?? 0, this.frame.clientHeight];
    if (row !== undefined && (top < this.frame.scrollTop + 20 || top > this.frame.scrollTop + height - 40)) {
      this.frame.scrollTop = top - height / 3;
    }
  }
}

// Ranks that run behind an arrow, and those that wait or have stopped behind a square.
function markOf(ranks) {
  const names = (isRunning) => ranks.filter((it) => it.isRunning === isRunning).map((it) => it.rank);
  const part = (sign, them) => (them.length === 0 ? [] : [made("span", sign === "▸" ? "runs" : "waits", `${sign}${ranges(them).replaceAll(" to ", "–").replaceAll(" ", "")}`)]);
  return [...part("▸", names(true)), ...part("▪", names(false))];
}
