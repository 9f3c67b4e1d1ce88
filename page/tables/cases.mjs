/**
 * Reads the files of cases. A case is
 *
 *     == What it is
 *     -- table            the text as it is pasted; → is a tab, and {U+00A0} that character
 *     -- workbook         in place of a table: the cells of a workbook, of which `~~so~~` is struck out
 *     -- page             in place of a table: a web page
 *     -- questions        the open questions: a kind, and its row if it is about one
 *     -- faults           the faults: a row and a meaning
 *     -- answers          question = option; `leave ROW`; `votes = COLUMN`; `thousands = .`
 *     -- members          the strict table without its header, once the answers are given
 *     -- notices          words that some notice or choice has, one a line
 *     -- compared         what was read beside what is printed, with ` | ` between them; `!` behind what is off
 *     -- unreadable       words of the sentence with which the text is refused
 *
 * A case without `questions` asks nothing; one without `faults` has none.
 */
import { readdirSync, readFileSync } from "node:fs";

/** A text with tabs and other characters in place of their signs. */
function plain(text) {
  return text.replace(/→/g, "\t").replace(/\{U\+([0-9A-F]{4})\}/g, (_, hex) => String.fromCharCode(parseInt(hex, 16)));
}

/** The parts of a case by their names. */
function caseOf(file, text) {
  const [title, ...lines] = text.split("\n");
  const parts = new Map();
  let part = null;
  for (const line of lines) {
    const name = /^-- ([a-z]+)$/.exec(line)?.[1];
    if (name && parts.has(name)) throw new Error(`${file}, ${title}: two parts ${name}`);
    if (name) parts.set(name, (part = []));
    else if (part) part.push(line);
    else if (line !== "" && !line.startsWith("#")) throw new Error(`${file}, ${title}: '${line}' is in no part`);
  }
  const linesOf = (name) => (parts.get(name) ?? []).filter((line) => line !== "" && !line.startsWith("# "));
  const kind = ["table", "workbook", "page"].find((it) => parts.has(it));
  const table = (parts.get(kind) ?? []).join("\n").replace(/\n+$/, "\n");
  return {
    title: `${file}: ${title.trim()}`,
    table: plain(table),
    kind,
    questions: linesOf("questions"),
    faults: linesOf("faults"),
    answers: linesOf("answers"),
    members: parts.has("members") ? linesOf("members").map(plain) : null,
    notices: linesOf("notices").map(plain),
    compared: linesOf("compared").map(plain),
    unreadable: parts.has("unreadable") ? linesOf("unreadable") : null,
  };
}

/** All cases of a folder. */
export function casesOf(folder) {
  const files = readdirSync(folder).filter((it) => it.endsWith(".txt")).sort();
  return files.flatMap((file) => {
    const [, ...texts] = `\n${readFileSync(new URL(file, folder), "utf8")}`.split("\n== ");
    return texts.map((text) => caseOf(file, text));
  });
}
