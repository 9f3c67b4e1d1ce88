/** What is refused before it is parsed, by counts of what is read and not by times. */
import assert from "node:assert/strict";
import { test } from "node:test";
import { workbook } from "./workbooks.mjs";

const reader = await import(process.env.READER);
const { bare, checkSize, checkTags, contentsOf, countUpTo, gridOf, partsOfXlsx, sheetOf, textOfBytes, withoutMarks } =
  reader;

const row = (...cells) => `<row>${cells.map((it) => `<c t="str"><v>${it}</v></c>`).join("")}</row>`;
const GOOD = `<sheetData>${row("Name", "Votes")}${row("Alland &amp; Co", "5")}</sheetData>`;

test("counts stop at their limits", () => {
  // Catches: a file that is read to its end before it is refused.
  assert.equal(countUpTo("<".repeat(1000), "<", 10), 11);
  assert.equal(countUpTo("a<b<c", "<", 10), 2);
  assert.throws(() => checkTags("<c/>".repeat(reader.MOST_TAGS + 1), "This sheet"), /more than 400,000 tags/);
  assert.throws(() => checkSize(reader.MOST_FILE + 1), /This file has 33,554,433 bytes/);
  const count = new reader.CellCount();
  assert.throws(() => {
    for (;;) count.add(1);
  }, /more than 100,000 cells/);
  assert.equal(count.count, reader.MOST_CELLS + 1);
});

test("many lines, and cells that span very many others, are refused", () => {
  // Catches: a text or a grid that is laid out before its rows and cells are counted.
  assert.throws(() => sheetOf("a,1\n".repeat(reader.MOST_LINES + 1)), /more than 20,000 lines/);
  const row = () => [{ text: "x", rows: 5000, columns: 200 }];
  assert.throws(() => gridOf(Array.from({ length: 5000 }, row)), /more than 100,000 cells/);
});

test("a table has 200 columns and 40,000 cells at most", () => {
  // Catches: a row with very many cells, which a preview would show in each of its rows; columns that are cut off.
  const wide = (columns) => `a,1${",b".repeat(columns - 2)}\nc,2\n`;
  assert.equal(sheetOf(wide(200)).width, 200);
  assert.throws(() => sheetOf(wide(201)), /more than 200 columns/);
  assert.equal(sheetOf(`a,1,,,,\n${"b,2\n".repeat(999)}`).width, 2);
  assert.throws(() => sheetOf(`${wide(40)}${"d,3\n".repeat(999)}`), /1,001 rows/);
  assert.throws(() => sheetOf(`${wide(200)}${"d,3\n".repeat(199)}`), /more than 40,000 cells/);
  const cell = { text: "x", rows: 1, columns: 1 };
  assert.equal(gridOf([Array.from({ length: 200 }, () => cell)]).cells[0].length, 200);
  assert.throws(() => gridOf([Array.from({ length: 201 }, () => cell)]), /more than 200 columns/);
  assert.equal(gridOf([[{ ...cell, columns: 5000 }]]).cells[0].length, 200);
});

test("a word in another encoding is looked for near its letter alone", () => {
  // Catches: a search whose steps grow with the square of a long run of letters, such as a picture in a web page.
  const run = "A".repeat(100_000);
  const bytes = Uint8Array.from([...`${run},Cura`, "\u00e7", ..."ao,1\n"], (it) => it.charCodeAt(0));
  assert.match(textOfBytes(bytes.buffer).notices[0], /such as those of 'Cura\u00e7ao'/);
  const glued = Uint8Array.from([...run, "\u00e7", ...run], (it) => it.charCodeAt(0));
  assert.ok(textOfBytes(glued.buffer).notices[0].length < 200);
});

test("styles, scripts and comments without an end reach to the end of a page", () => {
  // Catches: a start of a style that is looked at again from each of the others, and what stands in it.
  assert.equal(bare(`a${"<style ".repeat(100_000)}`), "a");
  assert.equal(bare(`a${"<!--".repeat(100_000)}`), "a");
  assert.throws(() => bare("<sup ".repeat(100_000)), /more than 20,000 tags/);
  assert.equal(bare("a<script>1 < 2</script >b<style>c</style>d<!-- e -->f"), "abdf");
});

test("what is struck out is looked for once", () => {
  // Catches: styles, classes or attributes that are looked at again from each of the others.
  const many = ["{", "}", ".a{", "line-through", ".a{text-decoration:", " style=", ' style="', " class='", "</s>"];
  for (const it of many) assert.doesNotThrow(() => bare(`${it.repeat(40_000)}<p ${it.repeat(10_000)}>`), it);
  assert.equal(bare("<s>".repeat(100_000)), "<s>");
  assert.throws(() => bare("<s></s>".repeat(10_001)), /more than 20,000 tags/);
});

test("of a page only the tags of tables are left", () => {
  // Catches: very deep elements that no table needs, a Director glued to an alternate, and a raised number that is read
  // as a part of the number before it.
  assert.equal(bare(`${"<div>".repeat(1000)}<td rowspan="2" onclick="x()">A</td>`), '<td rowspan="2">A</td>');
  assert.equal(bare("<td><p>Moreno</p><p>Guerra</p></td>"), "<td>Moreno<br>Guerra<br></td>");
  assert.equal(bare('<a title="1 > 2" href=x>A</a><sup>1</sup>'), "A\u00b9");
  assert.equal(bare('5<sup id="a"><a href="#1">12&#49;</a></sup>0<sup>x'), "5\u00b9\u00b2&#49;0x");
});

test("marks are looked for at the end of a cell alone", () => {
  // Catches: a pattern whose steps grow with the square of the blanks or marks in a cell.
  const blanks = `A${" ".repeat(300)}1) B`;
  assert.equal(withoutMarks(blanks), blanks);
  assert.equal(withoutMarks(`China${" ".repeat(300)}3/`), "China");
  const long = `${"*".repeat(100_000)}x`;
  assert.equal(withoutMarks(long), long);
});

test("workbooks of an attacker are refused by what was read of them", () => {
  // Catches: a tree that is made of a part before its tags are counted, cells that are kept beyond the limits, entities
  // that unpack to very much, and a sheet that is read no more since another one is too large.
  const found = (one, more) => {
    const [sheet, ...others] = contentsOf({ parts: workbook(one, GOOD, more) }).sheets;
    assert.deepEqual([others.length, sheet.name], [0, "Two"]);
    assert.deepEqual(sheet.sheet.rows, [["Name", "Votes"], ["Alland & Co", "5"]]);
    return sheet.sheet.notices.join();
  };
  assert.match(found(`<row>${"<c/>".repeat(2_000_000)}</row>`), /'One' wasn't read. .* more than 400,000 tags/);
  assert.match(found(`<row>${"<c/>".repeat(300_000)}</row>`), /wasn't read. .* more than 5000 rows or 200 columns/);
  assert.match(found(`<row>${"<c/>".repeat(150)}</row>`.repeat(1000)), /'One' wasn't read. .* more than 100,000 cells/);
  assert.match(found("<x>".repeat(300_000)), /'One' wasn't read. This workbook is damaged/);
  assert.match(found(`<row>${"<c ".repeat(300_000)}`), /'One' wasn't read. This workbook is damaged/);
  assert.match(found('<!DOCTYPE x [<!ENTITY a "b">]><row/>'), /damaged: it defines entities/);
  assert.match(found(null), /'One' wasn't read. This workbook is too large/);
  const merged = `${GOOD}<mergeCell ref="A1:A5000"/>`.repeat(2);
  assert.equal(contentsOf({ parts: workbook(merged, "<row/>") }).sheets.length, 1);
});

test("rows that are struck out in a workbook are asked about", () => {
  // Catches: a member that a table strikes out and that counts; a cell that is struck out and that is read.
  const styles = `<fonts><font/><font><strike/></font><font><strike val="0"/></font></fonts>
    <cellXfs><xf fontId="0"/><xf fontId="1"/><xf fontId="2"/></cellXfs>`;
  const styled = (style, ...cells) => row(...cells).replace(/<c /g, `<c s="${style}" `);
  const mixed = row("Elland", "9", "1").replace("<c ", '<c s="1" ');
  const rows = [row("Name", "Votes", "Chair"), row("Alland", "1", "1"), styled(1, "Belland", "2", "1"),
    styled(2, "Delland", "5", "1"), mixed];
  const parts = workbook(rows.join(""), "<row/>", { "xl/styles.xml": `<styleSheet>${styles}</styleSheet>` });
  const { sheets: [{ sheet }] } = contentsOf({ parts });
  const read = (chosen) => reader.readTable(sheet, reader.guessedLayout(sheet), { chosen, leftOut: new Set() });
  const open = read(new Map());
  assert.deepEqual(open.questions.map(({ words }) => words), [
    "Struck out: row 3. Do they count?", "Struck out in part: row 5 ('Elland' in row 5). Do they count?",
  ]);
  const answered = (whole, part) => read(new Map([["struck", whole], ["struck-part", part]]));
  const votes = (answer) => answered(answer, "no").base.members.map((it) => it.votes);
  assert.deepEqual([votes("no"), votes("yes")], [[1, 5], [1, 2, 5]]);
  assert.deepEqual(answered("yes", "yes").faults.map(({ row, meaning }) => [row, meaning]), [[5, "name"]]);
  // Of merged cells what is struck out isn't filled down.
  const merged = workbook(`${[rows[0], ...rows.slice(1, 3), row("", "7", "2")].join("")}<mergeCell ref="A3:A4"/>`,
    "<row/>", { "xl/styles.xml": `<styleSheet>${styles}</styleSheet>` });
  assert.equal(contentsOf({ parts: merged }).sheets[0].sheet.rows[3][0], "");
});

test("a workbook is unpacked up to a limit", async () => {
  // Catches: a bomb of which all bytes are unpacked, and a sheet behind it that is lost.
  const zip = new reader.Zip();
  for (const [name, text] of Object.entries(workbook(" ".repeat(5 * reader.MOST_PART), GOOD))) zip.file(name, text);
  const parts = await partsOfXlsx(await zip.generateAsync({ type: "arraybuffer", compression: "DEFLATE" }));
  assert.equal(parts["xl/worksheets/sheet1.xml"], null);
  assert.deepEqual(contentsOf({ parts }).sheets.map(({ name }) => name), ["Two"]);
  // Its files are counted in its directory before any is looked at.
  const many = new reader.Zip();
  for (let at = 0; at < reader.MOST_FILES; at += 1) many.file(`xl/${at}.xml`, "");
  many.file("xl/workbook.xml", "");
  await assert.rejects(many.generateAsync({ type: "arraybuffer" }).then(partsOfXlsx), /more than 2000 files in it/);
  const other = await new reader.Zip().file("a", "b").generateAsync({ type: "arraybuffer" });
  await assert.rejects(partsOfXlsx(other), /zip file without a workbook/);
});

test("files of other kinds, and pages that browsers take long to read", () => {
  // Catches: tables in one another in which a browser looks for rows again and again; a study in a page that is read as
  // HTML; a script or a study that is read as a table.
  const deep = "<table><tr><td>".repeat(21);
  assert.throws(() => contentsOf({ text: `<html>${deep}` }), /more than 20 tables in one another/);
  assert.equal(contentsOf({ text: `<html>${"<table><tr><td>1</table>".repeat(100)}` }).kind, "page");
  // What the browser parses is counted before it: tags that a table needs, and letters.
  assert.equal(contentsOf({ text: `<html>${"<td>".repeat(20_000)}${"<b></b><sup>".repeat(50_000)}` }).kind, "page");
  assert.throws(() => contentsOf({ text: `<html>${"<td>".repeat(20_001)}` }), /more than 20,000 tags/);
  const most = reader.MOST_TEXT;
  assert.throws(() => contentsOf({ text: `<table>${"x".repeat(most)}` }), /has 1,048,583 characters, and at most/);
  assert.throws(() => contentsOf({ text: "1,".repeat(most / 2 + 1) }), /This text has 1,048,578 characters/);
  const page = `<!DOCTYPE html><script type="application/json" id="study-data">{"a": 1}</script>${deep}`;
  assert.deepEqual(contentsOf({ text: page }), { kind: "study", json: '{"a": 1}' });
  assert.equal(contentsOf({ text: '{"format": "board study 2"}' }).kind, "study");
  assert.equal(contentsOf({ text: "member,votes\nAAA,1\nscript\n" }).kind, "script");
  const quotes = `member,votes\n${'"'.repeat(100_001)}`;
  assert.throws(() => contentsOf({ text: quotes }), /a quoted cell isn't closed/);
});

test("a number or a chair in a cell with very many blanks", () => {
  // Catches: a pattern whose steps grow with the square of a cell's blanks.
  const cells = ["1", "%", "(continued)", "[1]", "*"].map((it) => `${" ".repeat(20_000)}${it}${" ".repeat(20_000)}x`);
  const text = `Name,Votes,Chair\n${cells.map((it) => `A${it},5${it},C${it}`).join("\n")}\n`;
  const { sheets: [{ sheet }] } = contentsOf({ text });
  const found = reader.readTable(sheet, reader.guessedLayout(sheet), { chosen: new Map(), leftOut: new Set() });
  assert.equal(found.base, null);
});
