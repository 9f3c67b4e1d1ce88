/** Sentences of the table of findings, and chairs in them. */
import { FINDINGS } from "../cited";
import { isolated, listed } from "../study/names";

/** A sentence of the table of findings, with what it speaks of. */
export function said(name: keyof typeof FINDINGS, words: Readonly<Record<string, string>>): string {
  return FINDINGS[name].replace(/\{(\w+)\}/g, (_, key: string) => words[key] ?? "");
}

/** Words, and the fractions of their numbers. */
export interface Said {
  readonly words: string;
  readonly source: string;
  /** Whether it begins with a veto. */
  readonly isLead?: boolean;
}

interface Named {
  readonly chair: number;
  readonly name: string;
}

/** A chair by number and name; one that has none is named by its number. */
export function namedChair({ chair, name }: Named): string {
  return name === `chair ${chair}` ? String(chair) : `${chair} ${isolated(name)}`;
}

/** Chairs by number and name. */
export function chairsWords(rows: readonly Named[]): string {
  return listed(rows.map(namedChair));
}
