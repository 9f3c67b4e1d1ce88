/** The filter of members: by code, name, or the number or name of a chair; accents and case make no difference. */

/** Letters that have no accent to take off, and how people type them. */
const LETTERS: Readonly<Record<string, string>> = {
  ı: "i", ø: "o", ł: "l", ß: "ss", æ: "ae", œ: "oe", đ: "d", ð: "d", þ: "th", ħ: "h", ŋ: "n",
};

/** A text in small letters without accents. */
export function folded(text: string): string {
  const bare = text.toLowerCase().normalize("NFD").replace(/\p{M}/gu, "");
  return bare.replace(/[ıøłßæœđðþħŋ]/g, (letter) => LETTERS[letter] ?? letter).trim();
}

/** Whether a filter names a chair: by its number alone or after the word `chair`, or by a part of its given name. */
export function namesChair(filter: string, chair: number, name: string | undefined): boolean {
  const wanted = folded(filter);
  if (wanted === String(chair) || wanted === `chair ${chair}`) return true;
  return wanted !== "" && folded(name ?? "").includes(wanted);
}

/** The members that a list names, each by its whole code or name, and the names that aren't of exactly one. */
export function listedMembers(
  text: string,
  members: readonly { readonly code: string; readonly name: string }[],
): { readonly codes: ReadonlySet<string>; readonly unknown: readonly string[] } {
  const names = text.split(/[\n\t,;]+/).map((it) => it.trim()).filter((it) => it !== "");
  const found = names.map((name) => {
    const wanted = folded(name);
    const all = members.filter(({ code, name: own }) => folded(code) === wanted || folded(own) === wanted);
    return all.length === 1 ? all[0]?.code ?? null : null;
  });
  return { codes: new Set(found.flatMap((it) => it ?? [])), unknown: names.filter((_, at) => found[at] === null) };
}

/** Whether a filter names a member, by a part of its code and name. */
export function namesMember(filter: string, code: string, name: string): boolean {
  return folded(`${code} ${name}`).includes(folded(filter));
}
