// The types of bspemu.js.

/** A text, as UTF-8, or bytes. */
export type Content = string | ArrayBuffer | ArrayBufferView;

/** What the command line of the program says by options of the same names. The defaults are the program's. */
export interface Settings {
  /** The program: a text in assembly language, or a file. */
  image: Content;
  /** How the bytes of the program are read. Without it a text is assembly, and bytes have to be an ELF file. */
  format?: "elf" | "raw" | "asm";
  /** What each node reads as its input. */
  input?: Content;
  nodes?: number;
  /** The memory of each node, in bytes. */
  memory?: number;
  /** How many ticks each node may make. */
  limit?: number;
  /** The prices of a byte of the h-relation and of a superstep, in ticks. */
  g?: number;
  l?: number;
  /** The version of the ledger: 1 or 2. */
  ledger?: number;
  clock?: boolean;
  float?: boolean;
  atomic?: boolean;
  large?: boolean;
  /** The most memory that the emulator takes from this host, in MiB; 1,024 if not said. Beyond it memory is refused. */
  hostMemory?: number;
  /** For tests: the request for memory with this number is refused. */
  failRequest?: number;
}

export interface RunSettings extends Settings {
  /** Whether the costs of the supersteps and the outcome are told. They are, if not said otherwise. */
  report?: boolean;
  /** Whether the profile of the run is told, or else its counts. Nothing is written before the end of such a run. */
  profile?: boolean;
  counts?: boolean;
  /** Is called with what the nodes wrote in a superstep, once that is over. */
  onOutput?: (bytes: Uint8Array) => void;
}

export interface LiveSettings extends RunSettings {
  /** Ends the run. */
  signal?: AbortSignal;
}

export interface Answer {
  /** What the nodes wrote. */
  output: Uint8Array;
  /** The costs of the supersteps, their total and the outcome, a line each; nothing where no report was asked for. */
  report: string;
  /** How the run ended: the last line of the report. */
  outcome: string;
  /** The exit status of the program: 0 where all nodes ended, 2 for a fault, 3 for the limit, 4 where nodes could not go on. */
  status: number;
  profile?: string;
  counts?: string;
}

export interface Reply {
  /** Whether the line was refused. */
  refused: boolean;
  /** The lines of the reply. */
  text: string;
  bytes: Uint8Array;
  /** `done N` or `refused N`. */
  header: string;
}

/** A session of the debugger, with the lines of a framed session. */
export interface DebugSession {
  /** Answers a line. One line is asked at a time. */
  ask(line: string): Promise<Reply>;
  /** Ends the session, also in the midst of a line, whose promise is rejected. */
  end(): void;
}

export interface Emulator {
  /** Runs a program in a worker of its own. */
  run(settings: LiveSettings): Promise<Answer>;
  /** The same here and now: it blocks until the run is over. */
  runHere(settings: RunSettings): Answer;
  /** The ELF file of a text. */
  assemble(text: string, settings?: { float?: boolean; atomic?: boolean }): Uint8Array;
  /** The listing of a program: a line for each word. */
  list(image: Content, settings?: { format?: "elf" | "raw" | "asm"; float?: boolean; atomic?: boolean; large?: boolean }): string;
  /** Starts the debugger in a worker of its own. */
  debug(settings: Settings): Promise<DebugSession>;
}

/** What the emulator refused, with its own text, its exit status, and what was written before. */
export class Refused extends Error {
  status: number;
  output: Uint8Array;
}

/** The run or the session was ended from outside. Its name is AbortError. */
export class Ended extends Error {}

export interface Loading {
  /**
   * Starts a worker of this name with this file. A page that was not opened from a server needs its own: there, a browser starts no worker
   * with a module. The file also works as a script, without its exports and `import.meta.url`.
   */
  startWorker?: (name: string) => Worker;
}

/** The emulator: of bspemu.wasm beside this file, or of the module that is given. */
export function load(module?: WebAssembly.Module | ArrayBuffer | ArrayBufferView, loading?: Loading): Promise<Emulator>;
