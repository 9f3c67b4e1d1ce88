/** What the package uses of Node. It imports nothing, so the same file works in browsers and bundles. */

type Values = { readonly [name: string]: string[] | boolean | undefined };
interface Builtins {
  "node:fs": {
    readFileSync(path: string | { readonly href: string }): Uint8Array;
    openSync(path: string, flags: "r"): number;
    readSync(file: number, bytes: Uint8Array, options: { offset: number }): number;
    writeSync(file: number, bytes: Uint8Array, offset: number): number;
  };
  "node:os": { availableParallelism(): number };
  "node:process": { readonly argv: readonly string[]; exitCode: number };
  "node:worker_threads": {
    Worker: new (code: string, options: { eval: true }) => {
      once(event: string, call: (given: never) => void): void;
      postMessage(given: unknown): void;
      terminate(): void;
    };
  };
  "node:util": { parseArgs(given: object): { values: Values; positionals: string[] } };
}

/** A module of Node; an error where there is none. */
export function builtin<Name extends keyof Builtins>(name: Name): Builtins[Name] {
  type Process = { getBuiltinModule?: (name: Name) => Builtins[Name] };
  const { process } = globalThis as { process?: Process };
  if (process?.getBuiltinModule) return process.getBuiltinModule(name);
  throw new Error("files are read in Node 20.16 or later only: fetch the file, and pass its bytes");
}

/** The bytes of a file. */
export const readFile = (path: string | { readonly href: string }): Uint8Array => builtin("node:fs").readFileSync(path);
