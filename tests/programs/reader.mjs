/**
 * Opens files in the page's reader of tables: node reader.mjs READER FILE.. prints a line of JSON for each. It has the
 * sentence with which the file is refused, or the questions and faults, and the members that need no answer.
 */
import { readFileSync } from "node:fs";
import { resolve } from "node:path";
import { parsed } from "../../page/tables/pages.mjs";

const { contentsOf, guessedLayout, partsOfXlsx, readTable, sheetsOfHtml } = await import(resolve(process.argv[2]));

const NO_ANSWERS = { chosen: new Map(), leftOut: new Set() };

/** The sheets of a file. */
async function sheetsIn(bytes) {
  const buffer = bytes.buffer.slice(bytes.byteOffset, bytes.byteOffset + bytes.byteLength);
  const isZip = bytes[0] === 0x50 && bytes[1] === 0x4b;
  const found = contentsOf(isZip ? { parts: await partsOfXlsx(buffer) } : { bytes: buffer });
  if (found.kind === "page") return sheetsOfHtml(found.html, parsed, found.notices);
  return found.kind === "table" ? found.sheets : [];
}

async function said(file) {
  try {
    const sheets = await sheetsIn(readFileSync(file));
    const [{ sheet }] = sheets;
    const { base, questions, faults } = readTable(sheet, guessedLayout(sheet), NO_ANSWERS);
    const open = questions.filter(({ answer }) => answer === null).map(({ id, words }) => `${id}: ${words}`);
    const wrong = faults.map(({ row, meaning, reason }) => `row ${row}, ${meaning}: ${reason}`);
    const chairs = base?.chairNames ?? {};
    const members = base?.members.map(({ name, votes, chair }) => [name, votes, chairs[chair] ?? chair]) ?? null;
    return { file, sheets: sheets.length, refused: "", questions: open, faults: wrong, members };
  } catch (why) {
    return { file, sheets: 0, refused: why.message, questions: [], faults: [], members: null };
  }
}

for (const file of process.argv.slice(3)) console.log(JSON.stringify(await said(file)));
