/** Names of chairs that are nearly equal: "Ms. Moyo" and "Moyo" are asked about. */
import { keyOf } from "./chairs";
import type { Questions } from "./questions";

const TITLES = /^(mr|mrs|ms|miss|dr|sir|dame|prof|hon)\b\.?\s*/i;

/** What nearly equal names have in common: no title, no accents, letters and digits alone. */
function bareKey(name: string): string {
  const plain = name.normalize("NFD").replace(/\p{M}/gu, "").replace(TITLES, "").toLowerCase();
  return plain.replace(/[^\p{L}\p{N}]/gu, "");
}

/** Asks about chairs with nearly equal names. Returns the chair of each row, one name for those that are one. */
export function withSimilar(seats: ReadonlyMap<number, string>, questions: Questions): ReadonlyMap<number, string> {
  const first = new Map<string, string>();
  const same = new Map<string, string>();
  for (const [row, name] of seats) {
    const key = bareKey(name);
    const other = first.get(key) ?? name;
    first.set(key, other);
    if (key === "" || keyOf(other) === keyOf(name) || same.has(name)) continue;
    same.set(name, other);
    const words = `'${other}' and '${name}' in row ${row}`;
    const answer = questions.ask({
      id: `similar-${row}`,
      kind: "similar",
      row,
      words: `One chair? ${words} are nearly equal names.`,
      options: [
        { key: "yes", words: `Yes: both are '${other}'`, choice: `One chair with two spellings: ${words}` },
        { key: "no", words: "No: two chairs", choice: `Two chairs with nearly equal names: ${words}` },
      ],
    });
    if (answer === "no") same.set(name, name);
  }
  return new Map([...seats].map(([row, name]) => [row, same.get(name) ?? name]));
}
