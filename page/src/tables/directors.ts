/** Cells of chairs with a Director over alternates, and tables whose rows are chairs. */
import { CHAIRS } from "../study/words";
import type { AlternateHead } from "./chairs";
import type { Questions } from "./questions";
import { rowsWords, type Line } from "./rows";
import type { Layout } from "./types";

/** The name of a chair in a cell of one or more lines. */
type NameOf = (cell: string) => string;
const hasLines = (cell: string): boolean => /^[^\n]+(\n[^\n]+)+$/.test(cell);
const firstLine: NameOf = (cell) => (hasLines(cell) ? cell.split("\n")[0] ?? "" : cell);
const allLines: NameOf = (cell) => (hasLines(cell) ? cell.replace(/\n/g, ", ") : cell);

/** Rows with the names of chairs in one line, and where else the alternates are. */
interface Directed {
  readonly lines: readonly Line[];
  readonly head: AlternateHead;
}

/** The rows with the first line of a chair's cell, if the others are those of alternates. */
export function withDirectors(lines: readonly Line[], head: AlternateHead, questions: Questions): Directed {
  const cellOf = ({ cells }: Line) => [cells.chair, cells.chairName].find(hasLines);
  const found = lines.filter(cellOf);
  const [director = "", ...others] = (found[0] ? cellOf(found[0]) ?? "" : "").split("\n");
  if (!found.length) return { lines, head };
  const rows = rowsWords(found.map(({ row }) => row));
  const isTwo = others.length < 2;
  const alternates = others.map((it) => `'${it}'`).join(" and ");
  const left = `Names of alternates below those of Directors were left out: ${rows}, such as ${alternates}`;
  const answer = head === "named" ? "yes" : questions.ask({
    id: "directors",
    kind: "alternate",
    words: `A Director and ${isTwo ? "an alternate" : "alternates"}? The chair's cell has ` +
      `${isTwo ? "two" : "several"} lines in ${rows}, such as '${director}' over ${alternates}.`,
    options: [
      { key: "yes", words: "Yes: the chair has the name of the first line", choice: left },
      { key: "no", words: `No: ${isTwo ? "both" : "all"} lines are its name`,
        choice: `${isTwo ? "Both" : "All"} lines are the chair's name in ${rows}` },
    ],
  });
  const nameOf = answer === "no" ? allLines : firstLine;
  const named = lines.map(({ cells, ...it }): Line => {
    return { ...it, cells: { ...cells, chair: nameOf(cells.chair), chairName: nameOf(cells.chairName) } };
  });
  return { lines: named, head: answer === "no" ? head : "apart" };
}

/** The layout in which the names of chairs are those of members, too, where a table of chairs has no members. */
export function withOwnRows(layout: Layout, questions: Questions): Layout {
  const { code, name, chair } = layout.columns;
  if (code >= 0 || name >= 0 || chair < 0) return layout;
  const answer = questions.ask({
    id: "own-rows",
    kind: "chairs",
    words: "No column names members. Is each row a chair of its own?",
    options: [
      { key: "yes", words: "Yes: it has the votes of one member of its name",
        choice: "Each row was taken as a chair of its own, with one member of its name" },
      { key: "no", words: "No: I choose the column of members above", choice: "" },
    ],
  });
  return answer === "yes" ? { ...layout, columns: { ...layout.columns, name: chair } } : layout;
}

/** Asks where the members sit if no column and no heading gives chairs. Returns the rows with their chairs. */
export function withChairs(lines: readonly Line[], layout: Layout, questions: Questions): readonly Line[] {
  const members = lines.filter(({ role }) => role === "member");
  if (layout.columns.chair >= 0 || lines.some(({ role }) => role === "heading") || !members.length) return lines;
  const own = {
    key: "own", words: "Each row is a chair of its own", choice: "Each row was taken as a chair of its own",
  };
  const answer = questions.ask({
    id: "no-chairs",
    kind: "chairs",
    words: "No column gives the chairs. Choose one above if there is one.",
    options: [
      ...(members.length <= CHAIRS.length ? [own] : []),
      { key: "yes", words: "All members are in no chair", choice: "No column gives chairs: no member has one" },
    ],
  });
  if (answer !== "own") return lines;
  return lines.map((it) => ({ ...it, cells: { ...it.cells, chair: it.cells.name || it.cells.code } }));
}
