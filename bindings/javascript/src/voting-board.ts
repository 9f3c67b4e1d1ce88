#!/usr/bin/env node
/** The program `voting-board replay`, which prints what `board replay` prints. */
import {
  VERSION, Refused, replay, type Chair, type Fault, type Outcome, type Reading, type ReplayOptions,
} from "voting-board";
import { INPUT_BYTES } from "./names.js";
import { builtin } from "./node.js";

const HELP = `Prints the replay of a script, as \`board replay\` does

Usage: voting-board replay [--readers N] [--journal N] [FILE]

Without FILE the script is read from standard input.
  --readers N   the number of readers, from 1 to 4 [default: 1]
  --journal N   the most commands that are accepted, from 1 to 1000000 [default: 1000000]
  --help        prints this
  --version     prints the version
`;
const [ENDED, FAULT, REJECTED] = [0, 1, 2];
/** The characters that are written at a time. */
const AT_A_TIME = 1 << 16;
const files = builtin("node:fs");
const { argv } = builtin("node:process");
const { parseArgs } = builtin("node:util");

/** The fault that ends a run. */
type Ending = Pick<Fault, "record" | "name">;

/** Ends with a reason on standard error. */
class Stop extends Error {
  constructor(
    readonly status: number,
    message: string,
  ) {
    super(message);
  }
}

/** The number of an option that is given at most once. */
function numberOf(given: unknown, name: string): number | undefined {
  const [text, ...others] = (given ?? []) as string[];
  if (text === undefined) return undefined;
  if (others.length > 0 || !/^\+?\d+$/.test(text)) throw new Stop(REJECTED, `--${name} takes one number`);
  return Number(text);
}

function write(file: 1 | 2, bytes: Uint8Array): void {
  for (let at = 0; at < bytes.length; ) {
    try {
      at += files.writeSync(file, bytes, at);
    } catch (why) {
      if ((why as { code?: string }).code !== "EAGAIN") throw why;
    }
  }
}

/** The bytes of a file, or of standard input: at most one more than an input may have. */
function read(path: string | undefined): Uint8Array {
  const bytes = new Uint8Array(INPUT_BYTES + 1);
  const file = path === undefined ? 0 : files.openSync(path, "r");
  let length = 0;
  while (length < bytes.length) {
    try {
      const many = files.readSync(file, bytes, { offset: length });
      if (many === 0) break;
      length += many;
    } catch (why) {
      if ((why as { code?: string }).code !== "EAGAIN") throw why;
    }
  }
  return bytes.subarray(0, length);
}

function readOrFault(path: string | undefined): Uint8Array | undefined {
  try {
    return read(path);
  } catch (why) {
    if (path !== undefined) throw new Stop(REJECTED, String((why as Error).message));
    return undefined;
  }
}

const bytesOf = (text: string): Uint8Array => new TextEncoder().encode(text);

/** Writes to standard output. */
function print(text: string): void {
  try {
    write(1, bytesOf(text));
  } catch {
    throw new Stop(FAULT, "WriteFault");
  }
}

/** A fraction as `board replay` prints it, not reduced. */
const fraction = (over: number, under: number): string => (under === 0 ? "-" : `${over}/${under}`);

function chairLine({ chair, weight, swings }: Chair, { omega, coalitions }: Reading, all: number): string {
  const under = [coalitions / 2, all, omega, coalitions - omega];
  return `chair,${chair},${weight},${swings},${under.map((it) => fraction(swings, it)).join()}\n`;
}

/** The lines of a reading, from after its reader on. */
function readingLines(it: Reading): string {
  const { front, majority, chairs, quota, cast, total, omega, coalitions } = it;
  const all = chairs.reduce((sum, { swings }) => sum + swings, 0);
  const head = [front, majority, chairs.length, quota, cast, total, omega, coalitions].join();
  return `${head}\n${chairs.map((chair) => chairLine(chair, it, all)).join("")}`;
}

/** Makes the lines of outcomes. Readings of the same board share their chairs, and so their lines. */
class Lines {
  readonly #made = new WeakMap<readonly Chair[], string>();

  of(it: Outcome): string {
    if (it.kind === "refused") return `refused,${it.number},${it.name}\n`;
    if (it.kind !== "reading") return `${it.kind},${it.number}\n`;
    const made = this.#made.get(it.chairs) ?? readingLines(it);
    this.#made.set(it.chairs, made);
    return `reading,${it.reader},${made}`;
  }
}

/** Standard output, of which no more than a part is held. */
class Output {
  #text = "";

  put(text: string): void {
    this.#text += text;
    if (this.#text.length >= AT_A_TIME) this.flush();
  }

  flush(): void {
    print(this.#text);
    this.#text = "";
  }
}

/** Prints the replay of an input as it goes. Returns the fault that ended it, or null. */
function printReplay(input: Uint8Array, limits: ReplayOptions, output: Output): Ending | null {
  const lines = new Lines();
  try {
    const run = replay(input, limits);
    for (const it of run) output.put(lines.of(it));
    return run.fault;
  } catch (why) {
    if (why instanceof Refused) return { record: 0, name: why.code };
    throw why;
  }
}

function parsed() {
  const option = { type: "string", multiple: true } as const;
  const flag = { type: "boolean" } as const;
  const options = { readers: option, journal: option, help: flag, version: flag };
  try {
    return parseArgs({ args: argv.slice(2), options, allowPositionals: true });
  } catch (why) {
    throw new Stop(REJECTED, (why as Error).message);
  }
}

function main(): number {
  const { values, positionals } = parsed();
  if (values.help || values.version) {
    try {
      print(values.help ? HELP : `voting-board ${VERSION}\n`);
    } catch {
      // That help can't be written is no fault, as with `board`.
    }
    return ENDED;
  }
  const [command, path, ...others] = positionals;
  if (command !== "replay" || others.length > 0) throw new Stop(REJECTED, `a command line is wrong\n\n${HELP}`);
  const [readers, journal] = [numberOf(values.readers, "readers"), numberOf(values.journal, "journal")];
  const limits = { ...(readers === undefined ? {} : { readers }), ...(journal === undefined ? {} : { journal }) };
  // Limits are rejected before the input is read.
  replay("", limits);
  const input = readOrFault(path);
  const output = new Output();
  const fault = input ? printReplay(input, limits, output) : { record: 0, name: "ReadFault" };
  if (fault) output.put(`fault,${fault.record},${fault.name}\n`);
  output.flush();
  if (!fault) return ENDED;
  throw new Stop(FAULT, fault.name);
}

function status(): number {
  try {
    return main();
  } catch (why) {
    const { message } = why as Error;
    write(2, new TextEncoder().encode(`board: ${message}\n`));
    if (why instanceof Stop) return why.status;
    return why instanceof Refused ? REJECTED : FAULT;
  }
}

builtin("node:process").exitCode = status();
