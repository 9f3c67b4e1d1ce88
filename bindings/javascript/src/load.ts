/** The module that the calls use: that of the package, or one that is passed in. */
import { Instance, Shared } from "./memory.js";
import { readFile } from "./node.js";
import { wrongType } from "./values.js";

/**
 * From what board.wasm is loaded: a compiled `WebAssembly.Module`, its bytes in an ArrayBuffer or a Uint8Array, or,
 * which `load` alone takes, its URL or a `Response`.
 */
export type Source = string | object;

const ALLOWED = "a WebAssembly.Module, the bytes of board.wasm, its URL, or a Response";

let packed: (() => Uint8Array) | undefined;
let compiled: WebAssembly.Module | undefined;
let kept: Shared | undefined;

/** Sets where the bytes come from if no module is passed in. @internal */
export function setPacked(bytes: () => Uint8Array): void {
  packed = bytes;
}

/** The module's bytes that the package has. */
function packedBytes(): Uint8Array {
  if (packed) return packed();
  throw new Error("no module is loaded: pass the bytes of board.wasm to load or loadSync");
}

const isBytes = (source: unknown): source is BufferSource =>
  source instanceof ArrayBuffer || ArrayBuffer.isView(source);

function use(module: WebAssembly.Module): void {
  const isOurs = WebAssembly.Module.exports(module).some(({ name }) => name === "board_script");
  if (!isOurs) throw new TypeError("the source isn't the board.wasm of this package");
  [compiled, kept] = [module, undefined];
}

/**
 * Loads the module at once. It is needed only to use another module than that of the package. Registers that there are
 * already stay in theirs. Anything else than a module or bytes is a TypeError.
 */
export function loadSync(source: Source = packedBytes()): void {
  if (source instanceof WebAssembly.Module) use(source);
  else if (isBytes(source)) use(new WebAssembly.Module(source));
  else throw wrongType("the source is", source, "a WebAssembly.Module, or the bytes of board.wasm");
}

async function bytesFrom(source: Source): Promise<BufferSource> {
  if (isBytes(source)) return source;
  if (typeof source === "string" || source instanceof URL) {
    if (/^file:/i.test(String(source))) return readFile(new URL(source));
    return bytesFrom(await fetch(source));
  }
  if (!(source instanceof Response)) throw wrongType("the source is", source, ALLOWED);
  if (!source.ok) throw new Error(`board.wasm isn't at ${source.url}: status ${source.status}`);
  return source.arrayBuffer();
}

/**
 * Loads the module without blocking. Calls also work without it: the first one then compiles the module, which takes
 * some ten milliseconds. A source may be a promise, such as that of `fetch`; no type of the server's is needed.
 *
 * @example
 * await load(); // the module of the package
 * await load(fetch("/assets/board.wasm"));
 */
export async function load(source: Source | Promise<Source> = packedBytes()): Promise<void> {
  const given = await source;
  use(given instanceof WebAssembly.Module ? given : await WebAssembly.compile(await bytesFrom(given)));
}

/** The module that is loaded, or else that of the package. */
function module(): WebAssembly.Module {
  if (!compiled) loadSync();
  return compiled!;
}

/** The module for a worker. @internal */
export const loaded = (): WebAssembly.Module => module();

/** The instance of counts and registers. @internal */
export function shared(): Shared {
  if (!kept?.isSound) kept = new Shared(module());
  return kept;
}

/** An instance for one call, whose memory is given back after it. @internal */
export function single(): Instance {
  return new Instance(module());
}
