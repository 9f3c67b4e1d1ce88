/** Tests of the numbers that people type, by hand-worked values. */
import assert from "node:assert/strict";
import { test } from "node:test";
import { percentage, wholeNumber, type PercentKind } from "../src/study/amounts";

const LIMIT = 2 ** 40;

test("whole numbers as they are written", () => {
  // Catches: a mark between thousands that is refused, or one that is stripped where it is a decimal mark.
  const same = ["419166", "419,166", "419 166", "419\u00a0166", "419\u202f166", "419'166", "419’166", " 419,166.00 "];
  for (const text of same) assert.deepEqual(wholeNumber(text, LIMIT), { value: 419_166 }, text);
  const total = ["5,049,012.00", "5.049.012", "5 049 012", "5049012", "5.049.012,00", "5049012,0"];
  for (const text of total) assert.deepEqual(wholeNumber(text, LIMIT), { value: 5_049_012 }, text);
  assert.deepEqual(wholeNumber("0", LIMIT), { value: 0 });
  assert.deepEqual(wholeNumber("1,099,511,627,776", LIMIT), { value: LIMIT });
});

test("what is no whole number, and why", () => {
  // Catches: 504.90 read as 50490, 4e5 as 4 or as 400,000, a sign that is dropped, a limit that isn't named.
  const wrong: Record<string, string> = {
    "504.90": "“504.90” has decimals: write a whole number, such as 504.",
    "12,5": "“12,5” has decimals: write a whole number, such as 12.",
    "419.166": "“419.166” may have a decimal point: write 419166 if it has none.",
    "+40": "“+40” has a sign: write a whole number without one, such as 419,166.",
    "\u221240": "“\u221240” has a sign: write a whole number without one, such as 419,166.",
    "40 %": "“40 %” is in per cent: write a number of votes, such as 419,166.",
    "4e5": "“4e5” isn't a whole number: write it like 419166 or 419,166.",
    "4,19,166": "“4,19,166” isn't a whole number: write it like 419166 or 419,166.",
    "1,234,56": "“1,234,56” isn't a whole number: write it like 419166 or 419,166.",
    "": "There is no number yet: write a whole number, such as 419,166.",
    "1,099,511,627,777": "“1,099,511,627,777” is above the limit of 1,099,511,627,776.",
  };
  for (const [text, words] of Object.entries(wrong)) assert.deepEqual(wholeNumber(text, LIMIT), { wrong: words }, text);
});

test("percentages as they are written", () => {
  // Catches: a decimal comma that is refused or stripped, a true minus that is lost, 40 per cent read as 0.4.
  const right: [string, PercentKind, string][] = [
    ["+40", "change", "+40"],
    ["+40 %", "change", "+40"],
    ["\u221212,5", "change", "-12.5"],
    ["-12.5%", "change", "-12.5"],
    ["+ 12,5 %", "change", "+12.5"],
    ["40 %", "share", "40"],
    ["12,5", "share", "12.5"],
    ["0,125", "share", "0.125"],
    ["12.500", "share", "12.500"],
    ["1,234.5", "share", "1234.5"],
    ["1.234,5", "share", "1234.5"],
    ["50", "step", "+50"],
    ["-50", "step", "-50"],
  ];
  for (const [text, kind, value] of right) assert.deepEqual(percentage(text, kind), { value }, text);
});

test("what is no percentage, and why", () => {
  // Catches: 12,500 read as 12.5 or as 12500 without a word, 40 as plus 40, +40 as a share of the total.
  const wrong: [string, PercentKind, string][] = [
    ["12,500", "share", "“12,500” has two meanings: write 12.5 or 12500."],
    ["-1,000", "change", "“-1,000” has two meanings: write -1 or -1000."],
    ["40", "change", "“40” has no sign: write +40 to add per cent, or -40 to take them away."],
    ["+40 %", "share", "“+40 %” has a sign: write 40 for a share of the total."],
    ["forty", "share", "“forty” isn't a percentage: write it like 15 or 12.5."],
    ["%", "share", "There is no percentage yet: write 15 or 12.5."],
    ["", "change", "There is no percentage yet: write +40 or -12.5."],
    ["12345678901", "share", "“12345678901” has more than 9 digits before or after the point."],
    ["0.1234567891", "share", "“0.1234567891” has more than 9 digits before or after the point."],
  ];
  for (const [text, kind, words] of wrong) assert.deepEqual(percentage(text, kind), { wrong: words }, text);
});
