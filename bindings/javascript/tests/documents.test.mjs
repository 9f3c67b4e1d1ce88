// The blocks of README.md, each with what it prints, and the examples of the comments.
import { equal } from "node:assert/strict";
import { execFileSync } from "node:child_process";
import { readFileSync, readdirSync } from "node:fs";
import { createRequire } from "node:module";
import { dirname, join } from "node:path";
import { test } from "node:test";
import { fileURLToPath } from "node:url";
import * as board from "voting-board";

const { resolve } = createRequire(import.meta.url);
const FOLDER = dirname(resolve("voting-board/package.json"));
const here = fileURLToPath(new URL("..", import.meta.url));
const runs = {
  js: [process.execPath, "--input-type=module", "--eval"],
  cjs: [process.execPath, "--input-type=commonjs", "--eval"],
  sh: ["bash", "-euc"],
};
const readme = readFileSync(join(FOLDER, "README.md"), "utf8");
const blocks = [...readme.matchAll(/```(js|cjs|sh)\n([^]*?)```\n\n```text\n([^]*?)```\n/g)];

test("README.md has blocks", () => equal(blocks.length, 6));

for (const [, language, code, wanted] of blocks) {
  test(`README.md: ${code.split("\n")[0]}`, () => {
    const [program, ...words] = runs[language];
    equal(execFileSync(program, [...words, code], { cwd: here, encoding: "utf8" }), wanted);
  });
}

for (const file of readdirSync(join(FOLDER, "dist/esm")).filter((it) => it.endsWith(".d.ts"))) {
  const types = readFileSync(join(FOLDER, "dist/esm", file), "utf8");
  const comments = [...types.matchAll(/\/\*\*[^]*?\*\//g)].map(([it]) => it.replace(/^\s*\*\/? ?/gm, ""));
  for (const [, code] of comments.flatMap((it) => [...it.matchAll(/@example\n([^]*)/g)])) {
    if (/fetch\(/.test(code)) continue;
    test(`${file}: ${code.split("\n")[0]}`, async () => {
      const lines = code.replace(/^\/\*\*|\*\/$/g, "");
      const known = { ...board, register: new board.Register({ AAA: 50 }), console: { log() {} } };
      if (/const register /.test(lines)) delete known.register;
      const own = Object.keys(known);
      const { constructor: Async } = Object.getPrototypeOf(async () => {});
      await new Async(...own, `${lines}\n`)(...own.map((it) => known[it]));
    });
  }
}
