/** What is struck out in a web page, before a browser makes a document of it. */
import assert from "node:assert/strict";
import { test } from "node:test";
import { bare, hasTable } from "../src/tables/html";

test("tags of what is struck out are left, each with its end", () => {
  // Catches: a part that is read though it is struck out, and an end that ends another element's part.
  assert.equal(bare("<td><del>A</del><ins>B</ins><strike>C</strike></td>"), "<td><s>A</s>B<s>C</s></td>");
  assert.equal(bare('<i style="text-decoration:line-through"><i>A</i>B</i>C'), "<s>AB</s>C");
  assert.equal(bare('<p style="text-decoration:line-through">A<p>B</p>'), "<s>A</s>B<br>");
  assert.equal(bare('<tr style="text-decoration : LINE-THROUGH"><td>A'), "<tr data-struck><td>A");
  assert.equal(bare('<br style="text-decoration:line-through"><img style="text-decoration:line-through">A'),
    "<br data-struck>A");
  assert.equal(bare("</s></del>A"), "A");
  assert.equal(bare("<s><b><del>A</del></b></s>B<s>C</s>"), "<s>A</s>B<s>C</s>");
  assert.equal(bare("<s><del>A</s>B</del>C"), "<s>AB</s>C");
  assert.equal(bare("<td><s>A<td><s>B</s>C"), "<td><s>A<td><s>B</s>C");
  assert.equal(bare("<del><td><s>A<br>B</s>C</td></del>"), "<s><td><s>A<br>B</s>C</td></s>");
});

test("classes that styles strike out", () => {
  // Catches: styles in a comment, a list of selectors, and a rule within another one, which spreadsheets write.
  const rule = "td.a, .b { color: red; text-decoration: line-through }";
  const styles = `<style><!-- @media all { ${rule} } .c { color: red } --></style>`;
  assert.equal(bare(`${styles}<b class=a>A</b><b class="x b">B</b><b class=c>C</b>`), "<s>A</s><s>B</s>C");
  assert.equal(bare(`${styles}<td class='b'>A`), "<td data-struck class='b'>A");
});

test("what is raised or lowered is a mark, whatever raises it", () => {
  // Catches: a footnote's number that becomes a part of the number before it.
  const raised = ["<sup>2</sup>", "<sub>2</sub>", '<span style="font-size:8pt; vertical-align: super">2</span>',
    '<span style="vertical-align:30%">2</span>', '<span style="mso-text-raise:6.0pt">2</span>',
    "<sup><a>[2]</a></sup>", "<sup><b>2</b></sup>", "<sup><p>2</p></sup>", "<sup>2<br></sup>"];
  for (const it of raised) assert.match(bare(`<td>5663${it}</td>`), /^<td>5663²(<br>)?<\/td>$/, it);
  assert.equal(bare("<td>5663<sup>2</td><td>7</td>"), "<td>5663²</td><td>7</td>");
  assert.equal(bare("<style>.f { vertical-align: super }</style><td>5663<i class=f>2</i></td>"), "<td>5663²</td>");
  assert.equal(bare('<td style="vertical-align: super">5663</td>'), "<td>5663</td>");
  assert.equal(bare('<td>56<span style="vertical-align: baseline">63</span></td>'), "<td>5663</td>");
});

test("a table on the clipboard", () => {
  // Catches: a table of a document whose text is read in its place.
  assert.ok(hasTable('<meta charset="utf-8"><TABLE border=1><tr><td><p>A</p></td></tr></TABLE>'));
  assert.ok(!hasTable("<p>A</p><tableau>"));
});
