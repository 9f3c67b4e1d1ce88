/** Tests of tables for LaTeX. */
import assert from "node:assert/strict";
import { test } from "node:test";
import { bibText, texTable, texText } from "../src/exports/tex";

test("marks that LaTeX takes for something else", () => {
  // Catches: a mark that isn't escaped, or one that is escaped twice.
  const texts: Record<string, string> = {
    "A & B_1": "A \\& B\\_1",
    "100 % of $5 #1": "100 \\% of \\$5 \\#1",
    "{x}": "\\{x\\}",
    "~^\\": "\\textasciitilde{}\\textasciicircum{}\\textbackslash{}",
    "\\&": "\\textbackslash{}\\&",
    '<a|b> "c"`': "\\textless{}a\\textbar{}b\\textgreater{} \\symbol{34}c\\symbol{34}\\textasciigrave{}",
    "Ünter 日本": "Ünter 日本",
  };
  for (const [text, wanted] of Object.entries(texts)) assert.equal(texText(text), wanted);
});

test("names in BibTeX", () => {
  // Catches: a name with a brace, after which BibTeX finds no end of the entry.
  assert.equal(bibText("a } {b} 100 %"), "a \\textbraceright{} \\textbraceleft{}b\\textbraceright{} 100 \\%");
  for (const name of ["}", "{{", "\\}", "a{b}}c", '"@x{'] ) {
    const marks = [...bibText(name)].filter((it) => "{}".includes(it));
    const depths = marks.map((_, at) => marks.slice(0, at + 1).reduce((sum, it) => sum + (it === "{" ? 1 : -1), 0));
    assert.ok(depths.every((it) => it >= 0) && (depths[depths.length - 1] ?? 0) === 0, name);
  }
});

test("a table", () => {
  // Catches: a heading over other columns, a missing number that looks like a minus, a comment of two lines.
  const head = (group: string, own: string) => ({ group, own });
  const heads = [
    head("Votes", "base"), head("Votes", "A & B"), head("Share", "base"), head("Share", "A & B"),
    head("Share", "added, points"), head("Count", ""),
  ];
  const rows = [
    { chair: "1", name: "Hills\n& Dales", note: " (new)", cells: ["", "1,234", "-", "50.0 %", "-1.5", "7"] },
    { chair: "2", name: "שלום", note: "", cells: ["9", "8", "1.0 %", "2.0 %", "+1.0", "8"] },
  ];
  const sums = { chair: "", name: "All chairs", note: "", cells: ["9", "1,242", "", "52.0 %", "", "15"] };
  const lines = texTable(heads, rows, sums, ["table A\nB sha256 x"]).split("\n");
  assert.ok(lines.some((it) => it.startsWith("% Names have letters that pdfLaTeX lacks")));
  assert.ok(lines.includes("% table A B sha256 x"));
  assert.deepEqual(lines.slice(lines.indexOf("\\providecommand{\\righttoleft}[1]{#1}") + 1), [
    "{\\footnotesize\\setlength{\\tabcolsep}{4pt}\\relax",
    "\\begin{tabular}{rl*{6}{r}}",
    "\\toprule",
    "&  & \\multicolumn{2}{c}{Votes} & \\multicolumn{3}{c}{Share} & \\multicolumn{1}{c}{Count} \\\\",
    "\\cmidrule(lr){3-4}\\cmidrule(lr){5-7}\\cmidrule(lr){8-8}",
    "&  &  &  &  &  & added, &  \\\\",
    "Chair & Name & base & A \\& B & base (\\%) & A \\& B (\\%) & points &  \\\\",
    "\\midrule",
    "1 & Hills \\& Dales (new) &  & 1,234 & -- & 50.0 & $-$1.5 & 7 \\\\",
    "2 & \\righttoleft{שלום}",
    "  & 9 & 8 & 1.0 & 2.0 & $+$1.0 & 8 \\\\",
    "\\midrule",
    " & All chairs & 9 & 1,242 &  & 52.0 &  & 15 \\\\",
    "\\bottomrule",
    "\\end{tabular}",
    "}",
    "",
  ]);
});

const row = (name: string, many = 2) => ({ chair: "1", name, note: "", cells: Array<string>(many).fill("12.34 %") });

/** The lines of a table with a column for each group, and one chair of a name. */
function linesOf(name: string, groups: readonly string[]): string[] {
  const heads = groups.map((group) => ({ group, own: "power" }));
  const all = { chair: "", name: "All chairs", note: "", cells: groups.map(() => "") };
  return texTable(heads, [row(name, groups.length)], all, []).split("\n");
}

test("a heading that is wider than its column stands in lines", () => {
  // Catches: a table that is wider than the text since a group of one column has one line; a sum in another size.
  const lines = linesOf("Hills", ["Share of power, simple majority", "Votes"]);
  assert.deepEqual(lines.slice(lines.indexOf("\\toprule") + 1, lines.indexOf("\\midrule")), [
    "&  & \\multicolumn{1}{c}{Share of} & \\multicolumn{1}{c}{} \\\\",
    "&  & \\multicolumn{1}{c}{power, simple} & \\multicolumn{1}{c}{} \\\\",
    "&  & \\multicolumn{1}{c}{majority} & \\multicolumn{1}{c}{Votes} \\\\",
    "\\cmidrule(lr){3-3}\\cmidrule(lr){4-4}",
    "Chair & Name & power (\\%) & power (\\%) \\\\",
  ]);
  assert.ok(!lines.some((it) => it.startsWith("{")), "another size though it fits");
});

test("a table says how wide it is, and is smaller before it is too wide", () => {
  // Catches: a table beyond the margin without a word.
  const of = (many: number) => linesOf("Hills", Array.from({ length: many }, (_, at) => `Share, majority ${at}`));
  const [narrow, small, wide] = [2, 5, 30].map(of);
  const said = (lines: readonly string[] | undefined) => lines?.find((it) => it.includes(" pt wide, ")) ?? "";
  assert.match(said(narrow), /^% The table is about 2[0-9]{2} pt wide, and the text of article 345 pt\.$/);
  assert.match(said(small), /about 3[0-4][0-9] pt wide.*345 pt\.$/);
  assert.ok(small?.some((it) => it.startsWith("{\\")));
  assert.match(said(wide), /pt wide, .* 345 pt: it needs a page on its side/);
});

test("letters that pdfLaTeX lacks are named", () => {
  // Catches: a letter that stops pdfLaTeX and that no comment names; a warning for one that it prints.
  const said = (name: string) => linesOf(name, ["Votes"]).filter((it) => /pdfLaTeX/.test(it)).join("\n");
  assert.match(said("\u018fli Nguy\u1ec5n \u1e6cah\u0101"), /lacks \(\u018f \u1e6c \u1ec5\): use LuaLaTeX/);
  for (const letter of "ƏễƠḤṬṠǺŦȦΩ日") assert.match(said(letter), /lacks/, letter);
  for (const letter of "éñőßžŁ€…’–ȘẞÆ") assert.doesNotMatch(said(letter), /lacks/, letter);
  assert.match(said("Đorđe"), /\[T1\]\{fontenc\}/);
  assert.equal(said("o\u0302"), "");
});
