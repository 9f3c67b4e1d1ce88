/** A second table as changes of a study's base: who left, who is new, whose votes and chair are others. */
import type { Place } from "../engine/standing";
import { counted } from "../study/fractions";
import { listed, memberWords } from "../study/names";
import type { Command } from "../study/study";
import { CHAIRS } from "../study/words";
import { freeCodes, memberKey } from "./codes";
import type { TableBase, TableMember } from "./types";

/** A command, with the name of the new member that it is about, or of the chair that it opens. */
export interface Step {
  readonly what: Command;
  readonly name?: string;
  readonly chairName?: string;
}

export interface SecondTable {
  readonly steps: readonly Step[];
  /** What is changed, and what no change says, each a sentence. */
  readonly said: readonly string[];
}

/** The base of a study: its members, its open chairs, and the names of those that have one. */
export interface First {
  readonly members: readonly Place[];
  readonly open: readonly number[];
  readonly chairNames: Readonly<Record<string, string>>;
}

/** A member of the base and the same member of the second table. */
type Pair = readonly [own: Place, other: TableMember];

/** The same members: by name, as a country's or letter by letter; others by code, unless it was made from a name. */
function pairsOf(members: readonly Place[], others: readonly TableMember[]): Pair[] {
  const named = new Map(members.filter((it) => it.name).map((it) => [memberKey(it.name), it]));
  const byName = others.flatMap((it): Pair[] => {
    const key = it.name ? memberKey(it.name) : "";
    const own = named.get(key);
    named.delete(key);
    return own ? [[own, it]] : [];
  });
  const met = new Set(byName.flat());
  const coded = new Map(members.filter((it) => !met.has(it)).map((it) => [it.code, it]));
  const byCode = others.filter((it) => !met.has(it)).flatMap((it): Pair[] => {
    const own = coded.get(it.code);
    return own && !(own.name && it.name && own.code.startsWith("X")) ? [[own, it]] : [];
  });
  return [...byName, ...byCode];
}

/** The base's chair for each chair of the second table: the one with the most votes of members in both. */
function sameChairs(pairs: readonly Pair[]): Map<number, number> {
  const common = new Map<string, { own: number; other: number; votes: number }>();
  for (const [{ chair: own, votes }, { chair: other }] of pairs) {
    if (own === null || other === null) continue;
    const key = `${own} ${other}`;
    common.set(key, { own, other, votes: (common.get(key)?.votes ?? 0) + votes });
  }
  // Of equal ones, that with the same number, and then the lowest.
  const far = (it: { own: number; other: number }) => (it.own === it.other ? 0 : it.own);
  const falling = [...common.values()].sort((one, two) => two.votes - one.votes || far(one) - far(two));
  const [found, taken] = [new Map<number, number>(), new Set<number>()];
  for (const { own, other } of falling) {
    if (found.has(other) || taken.has(own)) continue;
    found.set(other, own);
    taken.add(own);
  }
  return found;
}

/** Both tables side by side: the members in both, those that left, the new ones, and the chairs. */
class Both {
  readonly pairs: readonly Pair[];
  readonly gone: readonly Place[];
  readonly added: readonly TableMember[];
  /** The base's chair of each chair of the second table that it has. */
  readonly same: ReadonlyMap<number, number>;
  /** The numbers in the base of all chairs of the second table: those that are opened get their own if it is free. */
  readonly numbers: ReadonlyMap<number, number>;

  constructor(readonly first: First, readonly table: TableBase) {
    this.pairs = pairsOf(first.members, table.members);
    const met = new Set<Place | TableMember>(this.pairs.flat());
    this.gone = first.members.filter((it) => !met.has(it));
    const codes = new Set(this.pairs.map(([own]) => own.code));
    this.added = table.members.filter((it) => !met.has(it)).map((it) => {
      const code = codes.has(it.code) ? freeCodes(codes)[0] ?? "" : it.code;
      codes.add(code);
      return { ...it, code };
    });
    this.same = sameChairs(this.pairs);
    const numbers = new Map(this.same);
    for (const { chair } of table.members) {
      if (chair === null || numbers.has(chair)) continue;
      const used = new Set(numbers.values());
      numbers.set(chair, [chair, ...CHAIRS].find((it) => !used.has(it)) ?? chair);
    }
    this.numbers = numbers;
  }

  /** The chair of a member of the second table, by its number in the base. */
  seat({ chair }: TableMember): number | null {
    return chair === null ? null : this.numbers.get(chair) ?? null;
  }

  /** The members that are in another chair: one that is closed and opened again is another one. */
  get moved(): readonly Pair[] {
    const { closed } = this;
    return this.pairs.filter(([own, other]) => {
      return (own.chair !== null && closed.includes(own.chair)) || own.chair !== this.seat(other);
    });
  }

  /** The base's chairs that no chair of the second table is. They are closed. */
  get closed(): readonly number[] {
    const kept = new Set(this.same.values());
    return this.first.open.filter((it) => !kept.has(it));
  }

  get opened(): readonly number[] {
    return [...this.numbers.keys()].filter((it) => !this.same.has(it));
  }
}

const move = (code: string, chair: number | null): Step => ({ what: { kind: "move", code, chair } });

/** The commands of the second table, in an order in which the register takes them: chairs are left and closed before
 * others are opened, and suspended members are restored as long as they move. */
function stepsOf(both: Both): Step[] {
  const { pairs, gone, added, moved: moves, table: { chairNames }, closed, opened, numbers } = both;
  const isClosed = (chair: number | null) => chair !== null && closed.includes(chair);
  const now = ({ chair }: Place) => (isClosed(chair) ? null : chair);
  const moving = new Set(moves.map(([own]) => own));
  const restored = new Set([
    ...gone, ...pairs.flatMap(([own, other]) => (moving.has(own) || !other.suspended ? own : [])),
  ].filter((it) => it.suspended));
  const entered: Pair[] = added.map((it) => [{ ...it, chair: null, suspended: false }, it]);
  const last: Step[] = [
    ...added.map(({ code, votes }): Step => ({ what: { kind: "admit", code, votes } })),
    ...[...moves, ...entered].flatMap(([own, other]) => {
      const chair = both.seat(other);
      return now(own) === chair ? [] : move(own.code, chair);
    }),
    ...[...pairs, ...entered].flatMap(([own, { suspended }]): Step[] =>
      suspended && (!own.suspended || restored.has(own)) ? [{ what: { kind: "suspend", code: own.code } }] : []),
  ];
  const names = new Map(added.map(({ code, name }) => [code, name]));
  return [
    ...[...restored].map(({ code }): Step => ({ what: { kind: "restore", code } })),
    ...gone.flatMap(({ code, chair }): Step[] => [
      ...(chair === null ? [] : [move(code, null)]), { what: { kind: "withdraw", code } },
    ]),
    ...moves.flatMap(([own]) => (isClosed(own.chair) ? move(own.code, null) : [])),
    ...closed.map((chair): Step => ({ what: { kind: "close", chair } })),
    ...opened.map((it): Step => {
      const name = chairNames[it];
      return { what: { kind: "open", chair: numbers.get(it) ?? it }, ...(name ? { chairName: name } : {}) };
    }),
    ...pairs.flatMap(([{ code, votes }, other]): Step[] =>
      votes === other.votes ? [] : [{ what: { kind: "votes", code, votes: other.votes } }]),
    ...last.map((it): Step => {
      const name = names.get(it.what.code ?? "");
      return name ? { ...it, name } : it;
    }),
  ];
}

/** What is changed, and what no change says: names, and why a chair is the same. */
function wordsOf({ pairs, moved, gone, added, same, opened, closed, first, table }: Both): string[] {
  const many = (count: number, words: string) => (count ? [`${counted(count, "member")} ${words}`] : []);
  const named = (some: readonly { code: string; name: string }[]) =>
    listed(some.map((it) => memberWords(it.code, it.name)));
  const changed = [
    ...many(pairs.filter(([own, other]) => own.votes !== other.votes).length, "with other votes"),
    ...(moved.length ? [`moved: ${named(moved.map(([own]) => own))}`] : []),
    ...(added.length ? [`new: ${named(added)}`] : []),
    ...(gone.length ? [`gone: ${named(gone)}`] : []),
    ...(opened.length ? [`${counted(opened.length, "chair")} opened`] : []),
    ...(closed.length ? [`${counted(closed.length, "chair")} closed`] : []),
  ];
  const renamed = [...same].sort(([, one], [, two]) => one - two).flatMap(([other, own]) => {
    const [before, after] = [first.chairNames[own], table.chairNames[other]];
    return before && after && before !== after ? [`${own} ${before} is ${after}`] : [];
  });
  const spelled = pairs.flatMap(([own, { name }]) =>
    own.name && name && own.name !== name ? [`${own.name} is ${name}`] : []);
  return [
    changed.length ? `${changed.join("; ")}.` : "Votes and members are the same.",
    "Chairs are the same where they share the most votes of members.",
    ...(renamed.length ? [`No change says another name of a chair: ${renamed.join("; ")}.`] : []),
    ...(spelled.length ? [`No change says another name of a member: ${spelled.join("; ")}.`] : []),
  ];
}

/** A second table as commands on the base of a study. */
export function secondTable(first: First, table: TableBase): SecondTable {
  const both = new Both(first, table);
  return { steps: stepsOf(both), said: wordsOf(both) };
}
