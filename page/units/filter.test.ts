/** Tests of the filter of members. */
import assert from "node:assert/strict";
import { test } from "node:test";
import { folded, listedMembers, namesChair, namesMember } from "../src/views/filter";

test("accents and case", () => {
  // Catches: a member that is found only by people who have its letters on their keyboard.
  const pairs: [string, string][] = [
    ["Turkiye", "Türkiye"], ["TURKIYE", "TÜRKİYE"], ["isik", "Işık"], ["Lodz", "Łódź"], ["Soren", "Søren"],
    ["Strasse", "Straße"], ["aegir", "Ægir"], ["Cote d'Ivoire", "Côte d'Ivoire"], ["Türkiye", "Turkiye"],
  ];
  for (const [typed, name] of pairs) assert.ok(namesMember(typed, "ABC", name), `${typed} finds ${name}`);
  assert.equal(folded(" Åland "), "aland");
  assert.ok(namesMember("tur", "TUR", "") && namesMember("abc alb", "ABC", "Albany"));
  assert.ok(!namesMember("turkey", "TUR", "Türkiye"));
});

test("chairs", () => {
  // Catches: chair 1 found together with 10 to 19, or an empty filter that names every chair.
  assert.ok(namesChair("1", 1, undefined) && namesChair("Chair 17", 17, undefined) && !namesChair("1", 10, undefined));
  assert.ok(namesChair("muller", 4, "Ms. Müller") && !namesChair("", 4, "Ms. Müller"));
  assert.ok(!namesChair("x", 4, undefined));
});

test("a pasted list of members", () => {
  // Catches: a part of a name that ticks another member, and a name that is left out without a word.
  const members = [["AAA", "Guinea"], ["BBB", "Guinea-Bissau"], ["CCC", "Türkiye"], ["DDD", "Twin"], ["EEE", "Twin"]]
    .map(([code = "", name = ""]) => ({ code, name }));
  const found = listedMembers("Guinea\nturkiye; bbb,Utopia\tTwin\n", members);
  assert.deepEqual([[...found.codes], found.unknown], [["AAA", "CCC", "BBB"], ["Utopia", "Twin"]]);
});
