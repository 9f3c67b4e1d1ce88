// @ts-check
/** Puts style, script and module into page.html: node assemble.mjs MADE.json MODULE.wasm SCRIPT.js OUT.html */
import { createHash } from "node:crypto";
import { readFileSync, writeFileSync } from "node:fs";

const [made = "", module = "", script = "", out = ""] = process.argv.slice(2);
/** @type {{ version: string, sources: string }} */
const { version, sources } = JSON.parse(readFileSync(made, "utf8"));
/** @param {string} text */
const hash = (text) => `'sha256-${createHash("sha256").update(text).digest("base64")}'`;

const style = readFileSync(new URL("page.css", import.meta.url), "utf8").replace(/\n\s*/g, "\n");
// A script in a page ends at the first "</script".
const first = readFileSync(new URL("first.js", import.meta.url), "utf8").trim();
const code = readFileSync(script, "utf8").replace(/<\/script/g, "<\\/script");
const policy = [
  "default-src 'none'",
  `script-src ${hash(first)} ${hash(code)} 'wasm-unsafe-eval' blob:`,
  `style-src ${hash(style)}`,
  "img-src data: blob:",
  "worker-src blob:",
  "base-uri 'none'",
  "form-action 'none'",
].join("; ");

/** @type {Record<string, string>} */
const parts = {
  POLICY: policy,
  VERSION: version,
  SOURCES: sources,
  STYLE: style,
  FIRST: first,
  STUDY: "null",
  MODULE: readFileSync(module).toString("base64"),
  SCRIPT: code,
};
const page = readFileSync(new URL("page.html", import.meta.url), "utf8");
writeFileSync(out, page.replace(/@([A-Z]+)@/g, (whole, name) => parts[name] ?? whole));
