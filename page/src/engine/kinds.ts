/** What a chair's power is in kind: by its counts whether it has a veto, and by votes and quota how safe that is. */
import { FINDINGS } from "../cited";
import { counted, type Ratio } from "../study/fractions";
import type { ChairReading, Reading } from "./reading";
import { MAJORITY, type Majority } from "../study/words";

/** The chair decides alone; nothing passes without it; or nothing depends on it. */
export type Kind = "alone" | "veto" | "powerless";

/** What stands at a chair's row, also where there is little room, and what it means. */
export const KIND: Readonly<Record<Kind, { tag: string; letter: string; words: string }>> = {
  alone: { tag: "alone", letter: "A", words: "decides everything by itself" },
  veto: { tag: "veto", letter: "V", words: "nothing passes without it" },
  powerless: { tag: "no power", letter: "0", words: "no outcome depends on it" },
};

const isOne = (ratio: Ratio | null) => ratio !== null && ratio.numerator === ratio.denominator;

/** The kind of a chair's power, by its counts; null where it has none of them, or no coalition wins. */
export function kindOf(chair: ChairReading | undefined): Kind | null {
  if (!chair?.prevent) return null;
  if (chair.swings === 0) return "powerless";
  if (!isOne(chair.prevent)) return null;
  return isOne(chair.initiate) ? "alone" : "veto";
}

/** Whether nothing passes without a chair. */
export function hasVeto(chair: ChairReading | undefined): boolean {
  const kind = kindOf(chair);
  return kind === "alone" || kind === "veto";
}

/** The per cent of the votes that a majority asks for. */
const PART: Readonly<Record<Majority, bigint>> = { half: 50n, "70": 70n, "85": 85n, quorum: 50n };

/** The greatest whole number that isn't above a quotient. */
function floored(over: bigint, under: bigint): bigint {
  return over / under - (over % under < 0n ? 1n : 0n);
}

/** The least votes with which the chair has a veto by votes, while the votes of all others stay. */
function leastForVeto({ majority, cast, total }: Reading, weight: number): bigint {
  const [part, others] = [PART[majority], BigInt(cast - weight)];
  // A simple majority is more than half of the votes cast; the others are a part of the total.
  const isHalf = majority === "half";
  const rest = isHalf ? others : BigInt(total - weight);
  const toStop = floored(100n * others, part) - rest + (isHalf ? 0n : 1n);
  const toPass = -floored(100n * others - part * rest, 100n - part);
  const least = [toStop, toPass, others === 0n ? 1n : 0n];
  return least.reduce((most, it) => (it > most ? it : most), 0n);
}

/** How many votes a chair could lose and still have its veto; below 0, how many it lacks. Null if it has a veto by the
 * number of chairs, whatever its votes are. */
export function vetoMargin(reading: Reading, { weight }: ChairReading): number | null {
  if (reading.chairs.length - 1 < reading.leastSize) return null;
  return Number(BigInt(weight) - leastForVeto(reading, weight));
}

/** A margin in words, such as `34,609 votes`. */
export function votesWords(margin: number): string {
  return counted(Math.abs(margin), "vote");
}

/** The end of a sentence on a chair's veto: how safe it is, or how many votes it lacks. */
export function marginEnd(reading: Reading, chair: ChairReading): string {
  const margin = vetoMargin(reading, chair);
  if (margin === null) return "";
  if (margin === 0) return FINDINGS.just;
  return FINDINGS[margin > 0 ? "more" : "fewer"].replace("{votes}", votesWords(margin));
}

/** The kind of a chair's power in words, with how safe a veto is; empty if it has none. */
export function kindWords(reading: Reading | undefined, chair: ChairReading | undefined): string {
  const kind = kindOf(chair);
  if (!kind || !reading || !chair) return "";
  const margin = kind === "powerless" ? "" : marginEnd(reading, chair);
  return `${KIND[kind].tag} at ${MAJORITY[reading.majority].label}${margin}`;
}

/** What stands at a chair's row, and at which majorities. */
export interface Tag {
  readonly kind: Kind;
  readonly words: string;
  /** Whether a change gave it or took it. */
  readonly turn: "" | "gained" | "lost";
  readonly majorities: readonly Majority[];
}

/** The words of some tags, and what they mean. */
export function meanings(tags: readonly Tag[]): { tag: string; words: string }[] {
  return (Object.keys(KIND) as Kind[]).flatMap((kind) => {
    const { tag, letter, words } = KIND[kind];
    const own = tags.filter((it) => it.kind === kind);
    if (!own.length) return [];
    return own.some((it) => it.words.endsWith(tag)) ? [{ tag, words }] : [{ tag: letter, words: `${tag}, ${words}` }];
  });
}

/** A chair at a majority, before and after. */
interface Compared {
  readonly before: ChairReading | undefined;
  readonly after: ChairReading | undefined;
}

/** The tag at a majority: a veto that a change gave or took, else the kind of power; null if there is none. */
function tagAt({ before, after }: Compared): Omit<Tag, "majorities"> | null {
  if (before && after && hasVeto(before) !== hasVeto(after)) {
    const kind = "veto";
    return hasVeto(after) ? { kind, words: "+ veto", turn: "gained" } : { kind, words: "− veto", turn: "lost" };
  }
  const kind = kindOf(after);
  return kind && { kind, words: KIND[kind].tag, turn: "" };
}

/** The tags of a chair, each with its majorities. */
export function tagsOf(at: ReadonlyMap<Majority, Compared>): Tag[] {
  const found = new Map<string, Tag>();
  for (const [majority, compared] of at) {
    const tag = tagAt(compared);
    if (!tag) continue;
    const { majorities = [] } = found.get(tag.words) ?? {};
    found.set(tag.words, { ...tag, majorities: [...majorities, majority] });
  }
  return [...found.values()];
}

/** On paper there is room for what a change did. */
const TURNS: Readonly<Record<string, string>> = { "+ veto": "gains veto", "− veto": "loses veto" };

/** The words of a tag, where they aren't short. */
export function fullWords({ words }: Tag): string {
  return TURNS[words] ?? words;
}

/** A tag in a letter, with the sign of what a change did. */
export function lettered(tag: Tag): Tag {
  const { tag: word, letter } = KIND[tag.kind];
  return { ...tag, words: tag.words.replace(word, letter) };
}

/** The tags of a chair for the cell of a table, such as `veto (85 per cent)`. */
export function tagWords(tags: readonly Tag[]): string {
  const ats = ({ majorities }: Tag) => majorities.map((it) => MAJORITY[it].label).join(" and ");
  return tags.map((it) => `${fullWords(it)} (${ats(it)})`).join("; ");
}
