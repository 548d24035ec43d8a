// The beginning: unpacks what the page holds, runs the program, and connects buttons, keys, the slider and the form.

/** @type {Moves|undefined} */
let moves;
let emulator, program, names, stage, listing, costs, ownInput, recordOf;
let playing;

function say(text, isError = false) {
  $("status").textContent = text;
  $("status").className = isError ? "error" : "";
}

function tellWay(share) {
  $("way").hidden = share >= 1;
  $("way").value = share;
}

const addressOf = (text) => URL.createObjectURL(new Blob([text], { type: "text/javascript" }));

// In a page that comes from a file, a browser starts no worker with a module. So a worker gets the same source as a script.
async function loadEmulator() {
  const [source, wasm] = await Promise.all([decoded("bspemu"), unpacked("wasm")]);
  const script = addressOf(source.replace(/^export /gm, "").replaceAll("import.meta.url", '""'));
  const { load } = await import(addressOf(source));
  return load(wasm, { startWorker: (name) => new Worker(script, { name }) });
}

/** The settings of the form, with the program and its input. */
async function settingsNow(linked) {
  const settings = { ...program.settings, hostMemory: 1536 };
  settings.nodes = linked?.nodes ?? Number($("nodes").value);
  settings.g = linked?.g ?? Number(priceOf($("g").value));
  settings.l = linked?.l ?? Number(priceOf($("l").value));
  const typed = new TextEncoder().encode($("input").value);
  const input = $("input").disabled ? ownInput : typed;
  settings.input = joinedBytes([bytesOf(program.front), input]);
  settings.image = await unpacked("image");
  return settings;
}

/** Runs the program with the settings of the form, and shows a stop. */
async function runAgain(link = "", linked = undefined) {
  pause();
  moves?.end();
  say("The program runs.");
  $("run").disabled = true;
  try {
    const machine = emulator === undefined ? new Recorded(recordOf, program.settings) : new Machine(emulator, await settingsNow(linked), tellWay);
    await machine.begin();
    say("");
    $("nodes").value = String(machine.nodes);
    $("superstep").max = String(machine.last);
    const ranks = () => Array.from({ length: machine.nodes }, (_, k) => new Option(`rank ${k}`, String(k)));
    $("line-rank").replaceChildren(new Option("all in turn", "all"), ...ranks());
    $("arrows").replaceChildren(new Option("all ranks", "all"), new Option("no rank", "none"), ...ranks());
    costs.begin(machine);
    moves = new Moves(machine, names, stage, listing, costs, program);
    $("columns").hidden = machine.nodes <= MOST_COLUMNS_OF_RANKS;
    await moves.ask(() => moves.linked(link));
  } catch (error) {
    say(error.message ?? String(error), true);
  }
  $("run").disabled = false;
}

function pause() {
  clearTimeout(playing);
  playing = undefined;
  $("play").textContent = "Play";
  $("play").setAttribute("aria-pressed", "false");
}

function play() {
  if (playing !== undefined) {
    pause();
    return;
  }
  $("play").textContent = "Pause";
  $("play").setAttribute("aria-pressed", "true");
  const on = async () => {
    await ($("play-by").value === "half" ? moves.half() : moves.beside(1));
    if (playing !== undefined && moves.stop.kind !== "over") {
      playing = setTimeout(on, SPEEDS[Number($("speed").value)]);
    } else {
      pause();
    }
  };
  playing = setTimeout(on, 0);
}

// What keys do. Fields keep those that they need themselves.
const KEYS = {
  ArrowRight: () => moves.beside(1), ArrowLeft: () => moves.beside(-1), PageDown: () => moves.superstep(1), PageUp: () => moves.superstep(-1),
  Home: () => moves.to(moves.stops.begin(0)), End: () => moves.to(moves.stops.over), " ": () => play(), n: () => moves.line(),
};

function onKey(event) {
  const isField = event.target.closest("input, textarea, select") !== null;
  const isButton = event.key === " " && event.target.closest("button, summary") !== null;
  if (moves === undefined || isField || isButton || event.ctrlKey || event.altKey || event.metaKey || !Object.hasOwn(KEYS, event.key)) {
    return;
  }
  event.preventDefault();
  event.key === " " || pause();
  KEYS[event.key]();
}

function connect() {
  const press = (id, make) => {
    $(id).onclick = () => {
      pause();
      moves !== undefined && make();
    };
  };
  press("first", () => KEYS.Home());
  press("superstep-back", () => moves.superstep(-1));
  press("back", () => moves.beside(-1));
  press("on", () => moves.beside(1));
  press("superstep-on", () => moves.superstep(1));
  press("last", () => KEYS.End());
  press("line-on", () => moves.line());
  press("columns-back", () => moves.choose(Math.max(0, moves.from - MOST_COLUMNS_OF_RANKS)));
  press("columns-on", () => moves.choose(Math.min(moves.machine.nodes - MOST_COLUMNS_OF_RANKS, moves.from + MOST_COLUMNS_OF_RANKS)));
  $("play").onclick = () => moves !== undefined && play();
  $("superstep").oninput = () => {
    pause();
    moves?.to(moves.stops.begin(Number($("superstep").value)));
  };
  $("supersteps").onclick = (event) => {
    pause();
    const box = $("supersteps").getBoundingClientRect();
    moves?.to(moves.stops.begin(costs.superstepAt((event.clientX - box.left) / box.width)));
  };
  $("stop").oninput = () => {
    pause();
    moves?.list && moves.to(moves.list[Number($("stop").value)]);
  };
  $("plain").onchange = drawAgain;
  $("try").onsubmit = (event) => {
    event.preventDefault();
    void runAgain(stage.view.link());
  };
  connectStage();
  document.addEventListener("keydown", onKey);
  addEventListener("resize", () => {
    moves?.seen && costs.draw();
    moves?.seen && moves.arrowsAgain();
  });
  addEventListener("beforeprint", beforePrint);
  addEventListener("afterprint", afterPrint);
  addEventListener("hashchange", () => follow(location.hash.slice(1)));
}

function drawAgain() {
  moves?.seen && moves.draw(moves.seen);
}

// What a reader chooses to see of a stop.
function connectStage() {
  stage.view.changed = drawAgain;
  const arrowsAgain = () => {
    moves?.seen && moves.arrowsAgain();
    moves?.seen && moves.linkAgain();
  };
  $("arrows").onchange = arrowsAgain;
  $("size").onchange = () => {
    $("ranks").style.zoom = $("size").value;
    arrowsAgain();
  };
  $("ranks").onclick = (event) => {
    const [head, fold] = [event.target.closest("th.rank"), event.target.closest(".fold")];
    if (head !== null) {
      $("arrows").value = $("arrows").value === head.dataset.rank ? "all" : head.dataset.rank;
      arrowsAgain();
    } else if (fold !== null) {
      stage.view.toggle(fold.closest("td.box").dataset.name);
    }
  };
  $("rows").ontoggle = () => $("rows").open && stage.view.list();
  $("traffic").ontoggle = () => moves?.seen && moves.traffic();
}

// The width and the height of a printed page, A4 across, in the browser's pixels, and the width that the page is laid out for.
const [PAPER_WIDTH, PAPER_HEIGHT, PRINTED_WIDTH] = [1040, 700, 1400];

// One stop is printed as one page: it is made as small as that needs.
function beforePrint() {
  const { body, documentElement } = document;
  documentElement.classList.add("printing");
  body.style.width = `${PRINTED_WIDTH}px`;
  const width = Math.max(PRINTED_WIDTH, $("stage").scrollWidth);
  let zoom = Math.min(PAPER_WIDTH / width, PAPER_HEIGHT / body.scrollHeight);
  // Smaller letters may break lines elsewhere, so that the height is not just smaller by the same factor.
  for (let k = 0; k < 4; k++) {
    body.style.zoom = String(zoom);
    zoom *= Math.min(1, PAPER_HEIGHT / body.getBoundingClientRect().height);
  }
  moves?.seen && moves.arrowsAgain();
}

function afterPrint() {
  document.documentElement.classList.remove("printing");
  document.body.style.width = document.body.style.zoom = "";
  moves?.seen && moves.arrowsAgain();
}

/** What a link has besides the stop. */
function settingsIn(link) {
  const found = {};
  for (const [, name, value] of link.matchAll(/&(nodes|g|l)=(\d{1,10})/g)) {
    found[name] = Number(value);
  }
  return found;
}

function follow(link) {
  const linked = settingsIn(link);
  const isOther = Object.entries(linked).some(([name, value]) => moves?.machine.settings[name] !== value);
  return moves === undefined || isOther ? runAgain(link, { ...program.settings, ...linked }) : moves.ask(() => moves.linked(link));
}

// Loads the machine. Where the page has none, or the browser cannot run it, a run is shown that was recorded.
async function loadMachine() {
  let why = "";
  try {
    if ($("wasm").textContent === "") {
      throw new Error("The page has a recorded run, and not the machine.");
    }
    if (typeof WebAssembly.Suspending !== "function") {
      throw new Error("This browser cannot run the machine.");
    }
    emulator = await loadEmulator();
    // A short run now, so that the browser's compiler is done with the module before a long one.
    emulator.runHere({ image: "li a7, 1\necall\n", report: false });
    return;
  } catch (error) {
    why = error.message ?? String(error);
    emulator = undefined;
  }
  const record = await decoded("record");
  if (record === "null") {
    throw new Error(`${why} The page has no recording of this run, which is too long for one.`);
  }
  recordOf = JSON.parse(record);
  $("other").hidden = true;
  $("recorded").hidden = false;
  $("recorded").textContent = `${why} ${recordOf.left} You see what the machine has answered as the page was written.`;
}

function showInput() {
  const text = new TextDecoder().decode(ownInput);
  const isText = !text.includes("\0") && !isOther(new TextEncoder().encode(text), ownInput);
  $("input").value = isText ? text : "";
  $("input").disabled = !isText;
  $("input-note").textContent = isText ? "" : `The input is ${counted(ownInput.length, "byte")} that are no text. It stays as it is.`;
}

async function begin() {
  program = JSON.parse(await decoded("program"));
  document.title = `${program.title}: a run`;
  $("title").textContent = program.title;
  $("command").textContent = program.command;
  ownInput = await unpacked("input-bytes");
  $("nodes").value = String(program.settings.nodes);
  showInput();
  names = new Names(program);
  stage = new Stage(names);
  listing = new Listing($("listing"), $("file"), program.sources);
  $("no-source").hidden = program.sources.length > 0;
  costs = new Costs(() => moves?.seen && moves.machine.supersteps === costs.supersteps && moves.linkAgain());
  connect();
  await loadMachine();
  const link = location.hash.slice(1);
  await runAgain(link, { ...program.settings, ...settingsIn(link) });
  document.documentElement.dataset.ready = String(Math.round(performance.now()));
}

begin().catch((error) => say(`This page cannot show the run. ${error.message ?? error}`, true));
