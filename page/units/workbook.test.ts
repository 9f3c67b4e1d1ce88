/** Tests of the parts of exported files that need no browser: texts of a workbook, and the comment of a drawing. */
import assert from "node:assert/strict";
import { test } from "node:test";
import type { Boards } from "../src/engine/pool";
import { withComment } from "../src/exports/exportFigure";
import { workbookOf } from "../src/exports/workbook";

test("blanks in the texts of a workbook", async () => {
  // Catches: a blank at an edge that is lost; an attribute of other texts, which R's openxlsx takes for a part of them.
  let parts: Readonly<Record<string, string>> = {};
  const pack = (_: string, asked: typeof parts) => {
    parts = asked;
    return { answer: Promise.resolve(new Uint8Array()) };
  };
  const rows = [["name"], ["Upper Volta"], [" first"], ["last "], ["two\nlines"]];
  await workbookOf({ ask: pack } as unknown as Boards, [{ name: "One", rows, widths: [10] }]);
  const texts = [...(parts["xl/sharedStrings.xml"] ?? "").matchAll(/<t([^>]*)>([^<]*)</g)];
  assert.deepEqual(texts.map(([, , text]) => text), rows.flat());
  const places = (parts["xl/worksheets/sheet1.xml"] ?? "").match(/t="s"><v>[0-9]+<\/v>/g);
  assert.deepEqual(places, rows.map((_, at) => `t="s"><v>${at}</v>`));
  const kept = texts.flatMap(([, attribute, text]) => (attribute === ' xml:space="preserve"' ? text : []));
  assert.deepEqual(kept, [" first", "last ", "two\nlines"]);
});

test("numbers in formats", async () => {
  // Catches: a number in the format of another one, and a format that the file hasn't.
  let parts: Readonly<Record<string, string>> = {};
  const pack = (_: string, asked: typeof parts) => {
    parts = asked;
    return { answer: Promise.resolve(new Uint8Array()) };
  };
  const of = (number: number, format: string) => ({ number, format });
  const rows = [["Share of power"], [of(0.25, "0.00%")], [of(1.5, "0.0")], [of(0.75, "0.00%")], [4]];
  await workbookOf({ ask: pack } as unknown as Boards, [{ name: "One", rows, widths: [3] }]);
  const formats = [...(parts["xl/styles.xml"] ?? "").matchAll(/numFmtId="([0-9]+)" formatCode="([^"]*)"/g)];
  const codes = new Map(formats.map(([, id, code]) => [id, code]));
  const styles = [...(parts["xl/styles.xml"]?.split("<cellXfs")[1] ?? "").matchAll(/<xf numFmtId="([0-9]+)"/g)];
  const sheet = parts["xl/worksheets/sheet1.xml"] ?? "";
  const cells = [...sheet.matchAll(/<c r="[A-Z]+[0-9]+"(?: s="([0-9]+)")?><v>([0-9.]+)/g)];
  const found = cells.map(([, style, value]) => [codes.get(styles[Number(style)]?.[1]), value]);
  assert.deepEqual(found, [["0.00%", "0.25"], ["0.0", "1.5"], ["0.00%", "0.75"], [undefined, "4"]]);
  // Its longest word fits the column.
  assert.match(sheet, /<col min="1" max="1" width="7"/);
});

test("the comment of a drawing", () => {
  // Catches: a comment before the tag, behind which LibreOffice doesn't find it; a line that ends the comment.
  const text = withComment('<svg aria-label="1 &gt; 0"><g/></svg>', ["one --> two", "$& three"]);
  assert.equal(text, '<svg aria-label="1 &gt; 0">\n<!--\none -> two\n$& three\n-->\n<g/></svg>\n');
});
