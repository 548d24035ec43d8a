// The editor: assembly language in colours, errors at their lines, and marks of ranks and breakpoints beside the lines.

const REGISTER = /^(?:x[12]?\d|x3[01]|f[12]?\d|f3[01]|zero|ra|sp|gp|tp|fp|t[0-6]|s\d|s1[01]|a[0-7]|ft\d|ft1[01]|fs\d|fs1[01]|fa[0-7])$/;
const NAME = /^[A-Za-z_.][\w.]*/;

// How many lines beyond those in view are drawn.
const MARGIN = 40;

// What the emulator's words for a refused line mean.
const MEANINGS = {
  BadToken: "something is not a word, a number or a string",
  UnknownMnemonic: "there is no statement of this name. Perhaps a label lacks its colon",
  BadOperand: "there are too few or too many operands, or one is not of the kind that the statement needs",
  OutOfRange: "a number or the offset of a jump is out of its range",
  DuplicateLabel: "this line or an earlier one already has the label",
  UndefinedLabel: "no line has the label that is used",
  TooLarge: "the program has more than 16 MiB",
};
// What a program in C has and a text in assembly language has not.
const IS_C = /^[ \t]*#[ \t]*include\b|^[ \t]*(?:int|void)\s+main\s*\(/m;
const WANTS_COMPILER = "This is a program in C. The page has no compiler: compile it with bspcc, and open the executable that this makes.";

// The word of a line that is refused, for those errors that one word makes.
function wordOf(editor, line, error) {
  const text = editor.getLine(line).replace(LABELS, "").replace(/#.*/, "");
  if (error === "UnknownMnemonic") {
    return NAME.exec(text)?.[0];
  }
  if (error === "UndefinedLabel") {
    const labels = new Set(editor.getValue().split("\n").flatMap((it) => LABELS.exec(it)[1].match(/[^\s:]+/g) ?? []));
    const operands = text.replace(NAME, "").match(/[A-Za-z_.][\w.]*/g) ?? [];
    return operands.find((it) => !labels.has(it) && !REGISTER.test(it));
  }
  return undefined;
}

function tokenOf(stream, line) {
  if (stream.eatSpace()) {
    return null;
  }
  if (stream.match(/^#.*/)) {
    return "comment";
  }
  if (stream.match(/^"(?:\\.|[^"\\])*"?/)) {
    return "string";
  }
  if (stream.match(/^-?(?:0x[0-9a-fA-F]+|\d+)/)) {
    return "number";
  }
  const name = stream.match(NAME);
  if (!name) {
    stream.next();
    return null;
  }
  if (!line.hasStatement && /^\s*:/.test(stream.string.slice(stream.pos))) {
    return "def";
  }
  if (!line.hasStatement) {
    line.hasStatement = true;
    return name[0].startsWith(".") ? "meta" : "keyword";
  }
  return REGISTER.test(name[0]) ? "variable-2" : null;
}

// A line of a listing begins with an address and a word.
function listingTokenOf(stream, line) {
  return stream.sol() && stream.match(/^[0-9a-f]{8}: \S*/) ? "comment" : tokenOf(stream, line);
}

function makeEditor(run, toggle) {
  for (const [mode, token] of [["assembly", tokenOf], ["listing", listingTokenOf]]) {
    globalThis.CodeMirror.defineMode(mode, () => ({
      startState: () => ({ hasStatement: false }),
      token: (stream, line) => {
        line.hasStatement = !stream.sol() && line.hasStatement;
        return token(stream, line);
      },
    }));
  }
  const made = globalThis.CodeMirror($("editor"), {
    mode: "assembly",
    lineNumbers: true,
    gutters: ["ranks", "CodeMirror-linenumbers"],
    tabSize: 8,
    viewportMargin: MARGIN,
    inputStyle: "contenteditable",
  });
  made.getInputField().setAttribute("aria-label", "Program");
  // Tab moves on to what follows the editor, as everywhere in the page.
  made.setOption("extraKeys", { Tab: false, "Shift-Tab": false, "Ctrl-Enter": run, "Cmd-Enter": run, F9: () => toggle(made.getCursor().line) });
  made.on("gutterClick", (_, line) => toggle(line));
  // Lines that come into view move the page only for those who write. Who steps stays at the buttons.
  made.on("scrollCursorIntoView", (_, event) => made.hasFocus() || event.preventDefault());
  return made;
}

function clearMarks(editor) {
  editor.operation(() => {
    editor.clearGutter("ranks");
    editor.eachLine((line) => void editor.removeLineClass(line, "background"));
  });
}

// Shows what was refused, at its line if it has one.
function showError(editor, error, isText) {
  const at = /^line (\d+): (\w+)$/.exec(error.message);
  if (!at || !isText) {
    say(error.message, true);
    return;
  }
  const line = Number(at[1]) - 1;
  const meaning = MEANINGS[at[2]];
  const word = wordOf(editor, line, at[2]);
  const hint = IS_C.test(editor.getValue()) ? ` ${WANTS_COMPILER}` : "";
  say(meaning ? `${error.message}${word === undefined ? "" : ` ${word}`}: ${meaning}.${hint}` : error.message, true);
  markBad(editor, line);
}

// Marks a line at which something is wrong, and leads there.
function markBad(editor, line) {
  editor.addLineClass(line, "background", "bad");
  editor.scrollIntoView({ line, ch: 0 }, 80);
  editor.setCursor({ line, ch: 0 });
}

// Makes room beside the lines for the names of ranks, while there are some.
function widenMarks(editor, isWide) {
  $("editor").classList.toggle("wide-marks", isWide);
  editor.refresh();
}

// Marks the lines at which ranks are, and those with breakpoints. The line of the rank that is looked at comes into view.
function showPlaces(editor, places, points, rank) {
  const at = new Map();
  for (const place of places.filter((it) => it.state !== "ended" && it.line >= 0)) {
    at.get(place.line)?.push(place) ?? at.set(place.line, [place]);
  }
  let shown = -1;
  editor.operation(() => {
    clearMarks(editor);
    for (const line of new Set([...at.keys(), ...points])) {
      editor.setGutterMarker(line, "ranks", markOf(at.get(line), points.has(line)));
    }
    for (const [line, ranks] of at) {
      editor.addLineClass(line, "background", "here");
      shown = ranks.some((it) => it.rank === rank) || shown < 0 ? line : shown;
    }
  });
  shown >= 0 && editor.scrollIntoView({ line: shown, ch: 0 }, 120);
}

// The ranks at a line: those that run behind an arrow, and those that wait or have stopped behind a square.
function markOf(places = [], isPoint) {
  const made = document.createElement("span");
  made.className = isPoint ? "at point" : "at";
  const names = (sign, ranks) => (ranks.length === 0 ? "" : sign + (ranks.length > 3 ? `${ranks.length} ranks` : ranks.join(",")));
  const ranksOf = (isRunning) => places.filter((it) => (it.state === "running") === isRunning).map((it) => it.rank);
  made.textContent = (isPoint ? "●" : "") + names("▸", ranksOf(true)) + names("▪", ranksOf(false));
  const said = places.slice(0, 32).map((it) => `rank ${it.rank}: ${it.state}`);
  made.title = [...(isPoint ? ["breakpoint"] : []), ...said, ...(places.length > 32 ? [".."] : [])].join("\n");
  return made;
}
