// The beginning: unpacks what the page holds, and connects its parts.

// What is shown at first, if the address is no link: a new program.
const FIRST = "";

let runs, stepping;

function say(text, isError = false) {
  $("status").textContent = text;
  $("status").className = isError ? "error" : "";
}

// Lets a button be pressed or not. One that cannot be pressed keeps the focus: who presses it by a key can press it again afterwards.
const allow = (id, isAllowed) => $(id).setAttribute("aria-disabled", String(!isAllowed));

// Which buttons can be pressed now.
function busy() {
  const isStill = !runs.isBusy && !stepping.isBusy;
  for (const id of ["run", "debug", "profile", "step", "over", "superstep", "go", "back", "point"]) {
    allow(id, isStill);
  }
  allow("stop", runs.isBusy || stepping.isOn);
}

// A button that cannot be pressed does nothing.
function guard(event) {
  if (event.target.closest('[aria-disabled="true"]')) {
    event.preventDefault();
    event.stopImmediatePropagation();
  }
}

function stop() {
  runs.stop();
  if (stepping.isOn) {
    stepping.end();
    say("You stopped it.");
  }
}

// Copies the page's address with the program in it, where the browser lets it.
async function copyLink(program) {
  history.replaceState(null, "", await program.link());
  program.keep();
  const isCopied = await navigator.clipboard?.writeText(location.href).then(() => true, () => false);
  say(isCopied ? "The link is copied. It holds the program and the settings." : "The address of this page is now the link. Copy it from there.");
}

// Saves the program as a file: a text, or the executable.
function save(program) {
  const name = program.name === "" ? "program.s" : program.name.replace(/\.c$/, program.isText ? ".s" : ".elf");
  const link = document.createElement("a");
  link.href = URL.createObjectURL(new Blob([program.image ?? program.text]));
  link.download = name;
  link.click();
  say(`The browser saves the program as ${name}.`);
}

// Makes all of a text be printed, and not only the lines that the window shows. Listings are too long for that.
function connectPrinter(program, editor) {
  const show = (isPrinted) => {
    const isWhole = isPrinted && program.isText;
    $("editor").classList.toggle("whole", isWhole);
    editor.setOption("viewportMargin", isWhole ? Infinity : MARGIN);
    editor.setOption("lineWrapping", isWhole);
    editor.refresh();
  };
  addEventListener("beforeprint", () => show(true));
  addEventListener("afterprint", () => show(false));
}

// Tries to do something with a program that somebody chose.
async function attempt(make) {
  try {
    await make();
  } catch (error) {
    say(error.message, true);
  }
}

function connectFiles(program) {
  const take = (files) => files[0] && attempt(() => program.takeFile(files[0]));
  $("open").onclick = () => $("file").click();
  $("file").onchange = () => {
    take($("file").files);
    // So that the same file can be opened again.
    setTimeout(() => void ($("file").value = ""));
  };
  document.ondragover = (event) => {
    event.preventDefault();
    document.body.classList.add("drop");
  };
  document.ondragleave = () => document.body.classList.remove("drop");
  document.ondrop = (event) => {
    event.preventDefault();
    document.body.classList.remove("drop");
    take(event.dataTransfer.files);
  };
}

// Says why nothing happens, if somebody types where a program cannot be changed.
function sayFixed(program) {
  if (stepping.isOn) {
    say("To change the program, choose Stop first.");
  } else if (!program.isText) {
    say("A compiled program cannot be changed here. Choose another one, or a new program.");
  }
}

function connect(program, editor) {
  editor.on("keypress", () => sayFixed(program));
  document.addEventListener("click", guard, true);
  $("examples").onchange = () => attempt(() => program.choose($("examples").value));
  $("link").onclick = () => attempt(() => copyLink(program));
  $("save").onclick = () => save(program);
  $("run").onclick = () => runs.run();
  $("profile").onclick = () => runs.profile();
  $("debug").onclick = () => stepping.begin();
  $("stop").onclick = stop;
  $("step").onclick = () => stepping.advance(`step ${stepping.rank} 1`);
  $("over").onclick = () => stepping.advance(`over ${stepping.rank}`);
  $("superstep").onclick = () => stepping.advance("phase", "turn");
  $("go").onclick = () => stepping.advance("go");
  $("back").onclick = () => stepping.back();
  $("point").onclick = () => stepping.toggle(editor.getCursor().line);
  $("rank").onchange = $("address").onchange = $("base").onchange = () => stepping.work(async () => {});
  addEventListener("pagehide", () => program.keep());
  // The browser asks first where this would lose a program.
  addEventListener("beforeunload", (event) => {
    program.keep();
    if (!program.isKept) {
      event.preventDefault();
    }
  });
  connectPrinter(program, editor);
  connectFiles(program);
  addEventListener("hashchange", () => program.follow(location.hash.slice(1)));
}

const addressOf = (text) => URL.createObjectURL(new Blob([text], { type: "text/javascript" }));

// In a page that comes from a file, a browser starts no worker with a module. So a worker gets the same source as a script.
async function loadEmulator() {
  const [source, wasm] = await Promise.all([decoded("bspemu"), unpacked("wasm")]);
  const script = addressOf(source.replace(/^export /gm, "").replaceAll("import.meta.url", '""'));
  const { load } = await import(addressOf(source));
  return load(wasm, { startWorker: (name) => new Worker(script, { name }) });
}

async function begin() {
  const loading = loadEmulator();
  // It is waited for below, also if it fails meanwhile.
  loading.catch(() => {});
  const script = document.createElement("script");
  script.text = await decoded("codemirror");
  document.head.append(script);
  const editor = makeEditor(() => runs.run(), (line) => stepping.toggle(line));
  const bspemu = await loading;
  const examples = JSON.parse(await decoded("programs"));
  const program = new Program(editor, bspemu, examples, () => stepping.end());
  runs = new Runs(program, bspemu);
  stepping = new Stepping(program, bspemu);
  program.offer();
  connect(program, editor);
  if (!program.restore()) {
    $("examples").value = FIRST;
    program.choose(FIRST);
    await program.follow(location.hash.slice(1));
  }
  // A short run now, so that the browser's compiler is done with the module before a long one.
  bspemu.runHere({ image: "li a7, 1\necall\n", report: false });
  busy();
  document.documentElement.dataset.ready = String(Math.round(performance.now()));
}

begin().catch((error) => say(`This page cannot run the emulator. ${error.message ?? error}`, true));
