/** Tests of how the page's modules import one another, from what esbuild says of a bundle of them. */
import assert from "node:assert/strict";
import { execFileSync } from "node:child_process";
import { readFileSync } from "node:fs";
import { test } from "node:test";

interface Bundle {
  readonly inputs: Readonly<Record<string, { readonly imports: readonly { readonly path: string }[] }>>;
  readonly outputs: Readonly<Record<string, { readonly inputs: object }>>;
}

const { inputs, outputs }: Bundle = JSON.parse(readFileSync(process.env["BUNDLE"] ?? "", "utf8"));

/** The modules from which a way of imports leads back to themselves. */
function inCycles(): string[] {
  const reached = (from: string): Set<string> => {
    const found = new Set<string>();
    const next = [from];
    for (let at = next.pop(); at !== undefined; at = next.pop()) {
      for (const { path } of inputs[at]?.imports ?? []) if (!found.has(path)) next.push(path), found.add(path);
    }
    return found;
  };
  return Object.keys(inputs).filter((it) => it.includes("src/") && !it.includes("nodejs") && reached(it).has(it));
}

test("no module imports itself, directly or through others", () => {
  // Catches: two modules that can't be read or tested one without the other.
  assert.ok(Object.keys(inputs).length > 60);
  assert.deepEqual(inCycles(), []);
});

test("zip files are packed and unpacked by the worker's script alone", () => {
  // Catches: a workbook that is unpacked on the page's own thread, and a second copy of what unpacks it.
  const zipped = (script: string) => Object.keys(outputs).filter((it) => it.endsWith(script))
    .flatMap((it) => Object.keys(outputs[it]?.inputs ?? {})).filter((it) => it.includes("nodejs/jszip/"));
  assert.deepEqual(zipped("main.js"), []);
  assert.ok(zipped("worker.js").length > 0);
});

test("the versions of all modules of Debian's in the page are recorded", () => {
  // Catches: a module whose next version changes the bytes of the page, while tools/made-with names no difference.
  const recorded = readFileSync("../../tools/made-with.txt", "utf8");
  const folders = new Set(Object.keys(inputs).flatMap((it) => /\/usr\/share\/nodejs\/[^/]+/.exec(it) ?? []));
  const packages = execFileSync("dpkg", ["--search", ...folders], { encoding: "utf8" }).trim().split("\n");
  assert.ok(packages.length > 10);
  for (const it of packages) assert.ok(recorded.includes(`\n${it.replace(/:.*/, "")} `), it);
});

test("the reader of tables, and what counts, need no page", () => {
  // Catches: a module for Node and for the worker that asks for elements of the page.
  const names = /src\/(tables|engine|study)\/|src\/exports\/csv\.ts/;
  const pure = Object.keys(inputs).filter((it) => names.test(it));
  const ofPage = /src\/views\//;
  assert.ok(pure.length > 15);
  for (const it of pure) assert.deepEqual(inputs[it]?.imports.filter(({ path }) => ofPage.test(path)), [], it);
});
