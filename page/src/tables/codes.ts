/** Codes of members that are made from names: a country's ISO code, and else a code that no country has. */
import listed from "./countries.txt";

/** Words that names are compared without, and short forms of words, as tools/countries.py has them. */
const LEFT_OUT = new Set(["the", "of", "and", "de", "d", "republic", "rep", "kingdom", ""]);
const SHORT: Readonly<Record<string, string>> = { dem: "democratic", st: "saint", fed: "federated", is: "islands" };
const LETTERS = [..."ABCDEFGHIJKLMNOPQRSTUVWXYZ"];
/** ISO 3166 leaves XAA to XZZ to its users; Kosovo commonly has XKX. */
const FREE = LETTERS.flatMap((second) => LETTERS.map((third) => `X${second}${third}`)).filter((it) => it !== "XKX");

const CODES = new Map(listed.trim().split("\n").flatMap((line) => {
  const [code = "", names = ""] = line.split(":");
  return names.split(";").map((name) => [name, code] as const);
}));

/** What the spellings of a country's name have in common: its words in order of the alphabet. */
function keyOf(name: string): string {
  const plain = name.normalize("NFD").replace(/\p{M}/gu, "").toLowerCase().replace(/[.'\u2019]/g, "");
  const words = plain.split(/[^a-z]+/).filter((it) => !LEFT_OUT.has(it)).map((it) => SHORT[it] ?? it);
  return [...new Set(words)].sort().join(" ");
}

/** The ISO code of a country's name, or null. */
export function countryCode(name: string): string | null {
  return CODES.get(keyOf(name)) ?? null;
}

/** What the same member's names have in common: the country's code, or the letters without accents and capitals. */
export function memberKey(name: string): string {
  return countryCode(name) ?? name.normalize("NFD").replace(/\p{M}/gu, "").replace(/\s+/g, " ").toLowerCase();
}

/** Codes that no country ever gets, without those that are used. */
export function freeCodes(used: Iterable<string>): string[] {
  const taken = new Set(used);
  return FREE.filter((it) => !taken.has(it));
}

/** Codes made from names, each once: a country's own for the first name of it. */
export function madeCodes(names: readonly string[]): string[] {
  const used = new Set<string>();
  const own = names.map((name) => {
    const code = countryCode(name);
    if (code === null || used.has(code)) return null;
    used.add(code);
    return code;
  });
  const free = freeCodes(used);
  return own.map((code) => code ?? free.shift() ?? "");
}
