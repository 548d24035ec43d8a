// The proved emulator in a page, in a worker or in node: runs, listings, assemblies and sessions of the debugger.
//
//     import { load } from "./bspemu.js";
//     const bspemu = await load();
//     const { output, report, outcome } = await bspemu.run({ image: text, nodes: 4 });
//
// bspemu.d.ts has the types. Each call makes an instance of bspemu.wasm for itself, so that its memory is given back when it ends. A run and
// a debugger have a worker of their own, which can be ended at any time.

const VERSIONS =
  "The emulator needs WebAssembly as browsers have had it since 2021, which is missing here. " +
  "Chrome, Edge and Chromium have it since version 85, Firefox since 79, Safari since 15, and node since 16.";
const SUSPENDING =
  "The debugger needs WebAssembly calls that can be suspended, which are missing here. " +
  "Chrome, Edge and Chromium have them since version 137. Firefox ESR 153 has them too.";

const MEBIBYTE = 1 << 20;
const PAGE = 1 << 16;
const HEADER = 16;
const FORMATS = { elf: 0, raw: 1, asm: 2 };
const LINES = 0;
const OUTPUT = 1;
const ERRORS = 2;
const BESIDE = 3;
const WORKER = "bspemu.js";
// The most bytes of a line that goes through shared memory.
const MOST_SHARED = 1 << 20;
const NUMBERS = [
  ["nodes", 1, 2 ** 32 - 1],
  ["memory", 1048576, 2 ** 32 - 1],
  ["limit", 1000000, Number.MAX_SAFE_INTEGER],
  ["ledger", 2, 2],
  ["g", 1, 2 ** 32 - 1],
  ["l", 0, 2 ** 32 - 1],
];

const NOTHING = new Uint8Array(0);
// How the lines behind the output begin.
const LINES_BEGIN = /^(?:superstep 0: w \d+ h \d+|total \d+\n)/;

/** What the emulator refused: its own text, without the program's name, its exit status, and what was written before. */
export class Refused extends Error {
  constructor(text, status, output = NOTHING) {
    super(text);
    this.name = "Refused";
    this.status = status;
    this.output = output;
  }
}

/** The run or the debugger was ended from outside. */
export class Ended extends Error {
  constructor() {
    super("the run was ended");
    this.name = "AbortError";
  }
}

// ---- the host's side of an instance

// The bytes that a block for n bytes has: a multiple of 16, and above 1,024 one of 16 steps for each power of two.
function room(n) {
  if (n <= 1024) {
    return Math.max(HEADER, Math.ceil(n / HEADER) * HEADER);
  }
  const step = 2 ** (Math.floor(Math.log2(n - 1)) - 4);
  return Math.ceil(n / step) * step;
}

// The heap of an instance, behind its stack and its data. Each block has its room in the 8 bytes at the start of the 16 before it. Blocks
// that were freed wait in a list for each size. The memory grows as it is needed, up to a limit.
class Heap {
  constructor(most, fail) {
    this.most = most;
    this.fail = fail;
    this.requests = 0;
    this.free = new Map();
  }

  begin(memory, base) {
    this.memory = memory;
    this.top = Math.ceil(base / HEADER) * HEADER;
    this.look();
  }

  look() {
    this.bytes = new Uint8Array(this.memory.buffer);
    this.numbers = new Float64Array(this.memory.buffer, 0, Math.floor(this.bytes.length / 8));
  }

  reaches(end) {
    if (end <= this.bytes.length) {
      return true;
    }
    if (end > this.most) {
      return false;
    }
    const wanted = Math.ceil((end - this.bytes.length) / PAGE);
    const spare = Math.floor((this.most - this.bytes.length) / PAGE);
    const more = Math.min(Math.max(wanted, Math.floor(this.bytes.length / PAGE / 4)), spare);
    if (more < wanted || !(this.grows(more) || this.grows(wanted))) {
      return false;
    }
    this.look();
    return true;
  }

  grows(pages) {
    try {
      this.memory.grow(pages);
      return true;
    } catch {
      return false;
    }
  }

  // A block of n bytes, or 0 where there is none.
  allocate(n) {
    this.requests += 1;
    if (this.requests === this.fail) {
      return 0;
    }
    const size = room(n);
    const waiting = this.free.get(size);
    if (waiting !== undefined && waiting.length > 0) {
      return waiting.pop();
    }
    const at = this.top + HEADER;
    if (!this.reaches(at + size)) {
      return 0;
    }
    this.top = at + size;
    this.numbers[(at - HEADER) / 8] = size;
    return at;
  }

  deallocate(at) {
    const size = this.numbers[(at - HEADER) / 8];
    const waiting = this.free.get(size);
    if (waiting === undefined) {
      this.free.set(size, [at]);
    } else {
      waiting.push(at);
    }
  }

  // A block of n bytes that begins with the first `kept` of another, which is given up; or 0, and that one stays as it was.
  reallocate(at, kept, n) {
    const old = this.numbers[(at - HEADER) / 8];
    const size = room(n);
    if (size <= old || at + old === this.top) {
      this.requests += 1;
      if (this.requests === this.fail) {
        return 0;
      }
      if (size <= old) {
        return at;
      }
      if (!this.reaches(at + size)) {
        return 0;
      }
      this.top = at + size;
      this.numbers[(at - HEADER) / 8] = size;
      return at;
    }
    const to = this.allocate(n);
    if (to !== 0) {
      this.bytes.copyWithin(to, at, at + kept);
      this.deallocate(at);
    }
    return to;
  }

  // Bytes of the host, put into a block.
  put(content) {
    const at = this.allocate(content.length);
    if (at === 0) {
      throw new Refused("no memory", 5);
    }
    this.bytes.set(content, at);
    return at;
  }

  // What a call of the heap answers is written where its first argument says: whether there is a block, and where.
  answer(result, at) {
    const where = Number(result);
    this.bytes[where] = at === 0 ? 0 : 1;
    new DataView(this.memory.buffer).setBigUint64(where + 8, BigInt(at === 0 ? HEADER : at), true);
  }

  imports() {
    return {
      heap_allocate: (result, n) => this.answer(result, this.allocate(Number(n))),
      heap_reallocate: (result, at, kept, n) =>
        this.answer(result, this.reallocate(Number(at), Number(kept), Number(n))),
      heap_deallocate: (at) => this.deallocate(Number(at)),
    };
  }
}

// The streams of an instance. What is written is handed on in pieces, each a copy; `next` gives the lines of a debugger.
class Streams {
  constructor(heap, handed, next) {
    this.heap = heap;
    this.handed = handed;
    this.next = next;
    this.left = NOTHING;
  }

  write(stream, at, count) {
    const from = Number(at);
    const to = from + Number(count);
    this.handed(stream, this.heap.bytes.slice(from, to));
    return count;
  }

  // As much of what is left as there is room for.
  give(at, count) {
    const taken = Math.min(Number(count), this.left.length);
    this.heap.bytes.set(this.left.subarray(0, taken), Number(at));
    this.left = this.left.subarray(taken);
    return BigInt(taken);
  }

  read(stream, at, count) {
    if (this.left.length === 0) {
      this.left = this.next();
    }
    return this.give(at, count);
  }

  async wait(stream, at, count) {
    if (this.left.length === 0) {
      this.left = await this.next();
    }
    return this.give(at, count);
  }

  imports(suspends) {
    const read = (stream, at, count) => this.read(stream, at, count);
    const wait = (stream, at, count) => this.wait(stream, at, count);
    return {
      stream_read: suspends ? new WebAssembly.Suspending(wait) : read,
      stream_write: (stream, at, count) => this.write(stream, at, count),
    };
  }
}

// The bytes of a `struct Options` of the module.
function optionBytes(wishes) {
  const view = new DataView(new ArrayBuffer(40));
  view.setBigUint64(0, BigInt(wishes.limit), true);
  const words = [wishes.format, wishes.nodes, wishes.memory, wishes.ledger, wishes.g, wishes.l];
  words.forEach((word, k) => view.setUint32(8 + 4 * k, word, true));
  const flags = [wishes.clock, wishes.float, wishes.atomic, wishes.large, wishes.report];
  flags.forEach((flag, k) => view.setUint8(32 + k, flag ? 1 : 0));
  return new Uint8Array(view.buffer);
}

// An instance in which one export is called once. What it writes goes to `handed`; a debugger's lines come from `next`.
function instance(module, wishes, handed, next, suspends) {
  const heap = new Heap(wishes.most, wishes.fail);
  const streams = new Streams(heap, handed, next);
  const { exports } = new WebAssembly.Instance(module, { host: { ...heap.imports(), ...streams.imports(suspends) } });
  heap.begin(exports.memory, Number(exports.__heap_base.value));
  const pass = (content) => [BigInt(heap.put(content)), BigInt(content.length)];
  const image = pass(wishes.image);
  const options = BigInt(heap.put(optionBytes(wishes)));
  heap.requests = 0;
  const passed = {
    run: () => [options, ...image, ...pass(wishes.input)],
    list: () => [options, ...image],
    assemble: () => [options, ...image],
  };
  const words = (passed[wishes.call] ?? passed.run)();
  heap.requests = 0;
  return { call: exports[wishes.call], words, heap };
}

// ---- what is asked for

function bytesOf(content, name) {
  if (typeof content === "string") {
    return new TextEncoder().encode(content);
  }
  if (content instanceof ArrayBuffer) {
    return new Uint8Array(content);
  }
  if (ArrayBuffer.isView(content)) {
    return new Uint8Array(content.buffer, content.byteOffset, content.byteLength);
  }
  throw new TypeError(`${name} is neither a text nor bytes`);
}

function formatOf(settings, image) {
  if (settings.format !== undefined) {
    if (!Object.hasOwn(FORMATS, settings.format)) {
      throw new TypeError(`format is ${settings.format}, and not elf, raw or asm`);
    }
    return FORMATS[settings.format];
  }
  if (typeof settings.image === "string") {
    return FORMATS.asm;
  }
  if (image[0] === 0x7f && image[1] === 0x45 && image[2] === 0x4c && image[3] === 0x46) {
    return FORMATS.elf;
  }
  throw new TypeError('image is no ELF file: say format: "raw" or format: "asm"');
}

// Everything that a call needs, with the defaults of the command line.
function wishesOf(call, settings) {
  const image = bytesOf(settings.image, "image");
  const wishes = { call, image, format: formatOf(settings, image), input: bytesOf(settings.input ?? "", "input") };
  for (const [name, usual, most] of NUMBERS) {
    const number = Number(settings[name] ?? usual);
    if (!Number.isInteger(number) || number < 0 || number > most) {
      throw new RangeError(`${name} is ${settings[name]}, and not a number from 0 to ${most}`);
    }
    wishes[name] = number;
  }
  for (const name of ["clock", "float", "atomic", "large"]) {
    wishes[name] = Boolean(settings[name]);
  }
  wishes.report = settings.report !== false;
  wishes.most = (settings.hostMemory ?? 1024) * MEBIBYTE;
  wishes.fail = settings.failRequest ?? 0;
  return wishes;
}

function joined(pieces) {
  const all = new Uint8Array(pieces.reduce((sum, piece) => sum + piece.length, 0));
  let at = 0;
  for (const piece of pieces) {
    all.set(piece, at);
    at += piece.length;
  }
  return all;
}

const textOf = (bytes) => new TextDecoder().decode(bytes);

// What a call writes. The output of a superstep comes in one piece, and so do the lines behind the output, last. A piece that may be these
// lines waits until there is another one.
class Written {
  constructor(hasLines, onOutput) {
    this.hasLines = hasLines;
    this.onOutput = onOutput;
    this.pieces = [[], [], [], []];
    this.held = undefined;
  }

  take(stream, bytes) {
    if (stream !== OUTPUT) {
      this.pieces[stream].push(bytes);
      return;
    }
    this.release();
    this.held = bytes;
    if (!this.hasLines || !LINES_BEGIN.test(textOf(bytes.subarray(0, 100)))) {
      this.release();
    }
  }

  release() {
    if (this.held !== undefined) {
      this.pieces[OUTPUT].push(this.held);
      this.onOutput?.(this.held);
      this.held = undefined;
    }
  }

  all(stream) {
    return joined(this.pieces[stream]);
  }

  // A refusal's text stands alone; what was held back then is output.
  check(status) {
    const errors = textOf(this.all(ERRORS));
    if (errors !== "") {
      this.release();
      throw new Refused(errors.trimEnd(), status, this.all(OUTPUT));
    }
  }
}

// Makes a call here and now.
function perform(module, wishes, onOutput) {
  const isRun = wishes.call !== "list" && wishes.call !== "assemble";
  const written = new Written(isRun && wishes.report, onOutput);
  const made = instance(module, wishes, (stream, bytes) => written.take(stream, bytes), () => NOTHING, false);
  const status = made.call(...made.words);
  written.check(status);
  if (!isRun) {
    return written.all(OUTPUT);
  }
  const report = textOf(written.held ?? NOTHING);
  const answer = { output: written.all(OUTPUT), report, outcome: report.trimEnd().split("\n").pop(), status };
  if (wishes.call !== "run") {
    answer[wishes.call] = textOf(written.all(BESIDE));
  }
  return answer;
}

// ---- workers

const isNode = typeof process === "object" && process.versions?.node !== undefined;

// A worker, in node or in a page, with the same three calls.
async function workerInNode() {
  const { Worker } = await import("node:worker_threads");
  const worker = new Worker(new URL(import.meta.url), { name: WORKER, workerData: WORKER });
  return {
    post: (message) => worker.postMessage(message),
    listen: (message, failure) => worker.on("message", message).on("error", failure),
    end: () => void worker.terminate(),
  };
}

function workerInPage(worker) {
  return {
    post: (message) => worker.postMessage(message),
    listen: (message, failure) => {
      worker.onmessage = (event) => message(event.data);
      worker.onerror = (event) => failure(new Error(event.message ?? "the worker failed"));
    },
    end: () => worker.terminate(),
  };
}

// In the worker: the call that the first message asks for, and then the lines of a debugger.
function serve(post, listen) {
  const waiting = [];
  const lines = [];
  let wake;
  const next = () => (lines.length > 0 ? Promise.resolve(lines.shift()) : new Promise((resolve) => waiting.push(resolve)));
  listen((message) => {
    if (message.line !== undefined) {
      const bytes = new TextEncoder().encode(message.line);
      waiting.length > 0 ? waiting.shift()(bytes) : lines.push(bytes);
    } else if (message.wishes.call === "debug") {
      void serveDebugger(message, post, next);
    } else {
      serveCall(message, post);
    }
  });
}

function errorOf(message) {
  return message.refused === undefined ? new Error(message.failed) : new Refused(message.refused, message.status, message.output);
}

function failureOf(error) {
  return error instanceof Refused ? { refused: error.message, status: error.status, output: error.output } : { failed: String(error) };
}

function serveCall({ module, wishes }, post) {
  try {
    post({ answer: perform(module, wishes, wishes.live ? (bytes) => post({ piece: bytes }) : undefined) });
  } catch (error) {
    post(failureOf(error));
  }
}

// Whenever the debugger asks for a line, what it wrote since the last one is its reply.
async function serveDebugger({ module, wishes, shared }, post, next) {
  let pieces = [];
  const errors = [];
  const handed = (stream, bytes) => (stream === ERRORS ? errors : pieces).push(bytes);
  const asked = () => {
    post({ reply: joined(pieces) });
    pieces = [];
  };
  const waits = () => {
    asked();
    return next();
  };
  const blocks = () => {
    asked();
    return sharedLine(shared);
  };
  try {
    const made = instance(module, wishes, handed, shared ? blocks : waits, !shared);
    const call = shared ? made.call : WebAssembly.promising(made.call);
    const status = await call(...made.words);
    post({ ended: status, errors: textOf(joined(errors)) });
  } catch (error) {
    post(failureOf(error));
  }
}

// Where calls cannot be suspended, a line comes through shared memory, for which the worker waits: its length first, and then its bytes.
function sharedLine(shared) {
  const words = new Int32Array(shared, 0, 1);
  Atomics.wait(words, 0, 0);
  const line = new Uint8Array(shared, 4, Atomics.load(words, 0)).slice();
  Atomics.store(words, 0, 0);
  return line;
}

function postShared(shared, line) {
  const bytes = new TextEncoder().encode(line);
  if (bytes.length > MOST_SHARED) {
    throw new RangeError(`a line for the debugger has at most ${MOST_SHARED} bytes here`);
  }
  new Uint8Array(shared, 4).set(bytes);
  const words = new Int32Array(shared, 0, 1);
  Atomics.store(words, 0, bytes.length);
  Atomics.notify(words, 0);
}

// ---- the interface

class Debugger {
  constructor(worker, shared) {
    this.worker = worker;
    this.shared = shared;
    this.wanted = undefined;
    this.over = undefined;
    this.begun = new Promise((resolve, reject) => (this.wanted = { resolve, reject }));
    worker.listen((message) => this.hear(message), (error) => this.fail(error));
  }

  hear(message) {
    if (message.reply !== undefined) {
      const wanted = this.wanted;
      this.wanted = undefined;
      wanted?.resolve(message.reply);
    } else if (message.ended !== undefined && message.errors === "") {
      // The line was `quit`, which has no reply.
      this.wanted?.resolve(NOTHING);
      this.wanted = undefined;
      this.fail(new Ended());
    } else if (message.ended !== undefined) {
      this.fail(new Refused(message.errors.trimEnd(), message.ended));
    } else {
      this.fail(errorOf(message));
    }
  }

  fail(error) {
    this.over ??= error;
    this.worker.end();
    this.wanted?.reject(this.over);
    this.wanted = undefined;
  }

  // A reply is a header, which says whether the line was refused, and the lines behind it.
  async ask(line) {
    if (this.over !== undefined) {
      throw this.over;
    }
    if (this.wanted !== undefined) {
      throw new Error("the last line has no reply yet");
    }
    if (line.includes("\n")) {
      throw new TypeError("a line for the debugger has no line feed");
    }
    this.shared ? postShared(this.shared, `${line}\n`) : this.worker.post({ line: `${line}\n` });
    const reply = new Promise((resolve, reject) => (this.wanted = { resolve, reject }));
    const bytes = await reply;
    const end = Math.max(bytes.indexOf(10), 0);
    const lines = bytes.subarray(end + 1);
    const header = textOf(bytes.subarray(0, end));
    return { refused: header.startsWith("refused"), header, bytes: lines, text: textOf(lines) };
  }

  end() {
    this.fail(new Ended());
  }
}

class Emulator {
  constructor(module, startWorker) {
    this.module = module;
    this.startWorker = startWorker ?? ((name) => new Worker(import.meta.url, { name, type: "module" }));
  }

  async worker() {
    return isNode ? workerInNode() : workerInPage(this.startWorker(WORKER));
  }

  runHere(settings) {
    return perform(this.module, wishesOf(callOf(settings), settings), settings.onOutput);
  }

  async run(settings) {
    const wishes = wishesOf(callOf(settings), settings);
    wishes.live = settings.onOutput !== undefined;
    settings.signal?.throwIfAborted();
    const worker = await this.worker();
    try {
      return await new Promise((resolve, reject) => {
        settings.signal?.addEventListener("abort", () => reject(new Ended()), { once: true });
        worker.listen((message) => {
          if (message.answer !== undefined) {
            resolve(message.answer);
          } else if (message.piece !== undefined) {
            settings.onOutput(message.piece);
          } else {
            reject(errorOf(message));
          }
        }, reject);
        worker.post({ module: this.module, wishes });
      });
    } finally {
      worker.end();
    }
  }

  assemble(text, settings = {}) {
    return perform(this.module, wishesOf("assemble", { ...settings, image: text, format: "asm" }));
  }

  list(image, settings = {}) {
    return textOf(perform(this.module, wishesOf("list", { ...settings, image })));
  }

  async debug(settings) {
    const wishes = wishesOf("debug", { ...settings, report: false });
    const suspends = typeof WebAssembly.Suspending === "function";
    if (!suspends && (typeof SharedArrayBuffer === "undefined" || !(isNode || globalThis.crossOriginIsolated))) {
      throw new Error(SUSPENDING);
    }
    const shared = suspends ? undefined : new SharedArrayBuffer(4 + MOST_SHARED);
    const worker = await this.worker();
    const session = new Debugger(worker, shared);
    worker.post({ module: this.module, wishes, shared });
    await session.begun;
    return session;
  }
}

function callOf(settings) {
  return settings.profile ? "profile" : settings.counts ? "counts" : "run";
}

async function bytesBeside() {
  const url = new URL("bspemu.wasm", import.meta.url);
  if (isNode) {
    const { readFile } = await import("node:fs/promises");
    return readFile(url);
  }
  const answer = await fetch(url);
  if (!answer.ok) {
    throw new Error(`${url} was answered with ${answer.status} ${answer.statusText}`);
  }
  return answer.arrayBuffer();
}

/** The emulator: of the module that is given, or else of bspemu.wasm beside this file. */
export async function load(source, { startWorker } = {}) {
  if (source instanceof WebAssembly.Module) {
    return new Emulator(source, startWorker);
  }
  const bytes = source === undefined ? await bytesBeside() : bytesOf(source, "the module");
  if (!WebAssembly.validate(bytes)) {
    throw new Error(VERSIONS);
  }
  return new Emulator(await WebAssembly.compile(bytes), startWorker);
}

// This file is its own worker. It works as a script too, without its exports: see `startWorker` in bspemu.d.ts.
if (isNode) {
  void import("node:worker_threads").then(({ isMainThread, parentPort, workerData }) => {
    if (!isMainThread && workerData === WORKER) {
      serve((message) => parentPort.postMessage(message), (hear) => parentPort.on("message", hear));
    }
  });
} else if (typeof WorkerGlobalScope === "function" && globalThis.name === WORKER) {
  serve((message) => globalThis.postMessage(message), (hear) => (globalThis.onmessage = (event) => hear(event.data)));
}
