/** Studies and their counts: the page's side of the registers. */
import {
  MOST_BASES, type Board, type Orders, type Outcome, type Point, type Power, type Question, type Swept, type Tried,
  type Turns,
} from "./orders";
import type { Boards, Report, Task } from "./pool";
import type { MemberRow } from "../../../bindings/javascript/src/tables";
import { readings, type Readings } from "./reading";
import { readRecords, recordOf, scriptOf, scriptWith } from "../study/script";
import { movesOver, sweepOver, thresholdsOver, type Place } from "./split";
import { Standing } from "./standing";
import type { Base, Change, Command, SweepAsked, Who } from "../study/study";
import type { Majority } from "../study/words";

export type { Outcome };

/** A list of changes on a base, counted. */
export class Counted {
  constructor(
    readonly base: Base,
    readonly majorities: readonly Majority[],
    readonly commands: readonly Command[],
    readonly before: Readings,
    readonly after: Readings,
    readonly outcomes: ReadonlyMap<number, Outcome>,
    /** The members and the chairs of the base, and after the changes. */
    readonly opening: Standing,
    readonly standing: Standing,
  ) {}

  /** Whether a change was carried out. */
  get isChanged(): boolean {
    return [...this.outcomes.values()].some((it) => it.kind === "accepted");
  }

  /** How many changes weren't carried out although they are on. */
  get refused(): number {
    return [...this.outcomes.values()].filter((it) => it.kind === "refused" || it.kind === "impossible").length;
  }

  /** The script that gives these readings. */
  get script(): string {
    return scriptOf(this.base.script, this.commands, this.majorities);
  }
}

/** A sweep that was counted, and the script that gives its readings. */
export interface Curve extends Swept {
  readonly asked: SweepAsked;
  readonly majorities: readonly Majority[];
  /** The members and the chairs of the board that was swept. */
  readonly standing: Standing;
  readonly script: string;
}

/** A member or a chair whose thresholds are wanted on a board; another chair to have more swings than, and a power to
 * have, or null. */
export interface ThresholdsAsked {
  readonly who: Who;
  readonly on: SweepAsked["on"];
  readonly other: number | null;
  readonly power: Power | null;
}

/** Thresholds without a range, and the script that gives the readings on both sides of each. */
export interface Thresholds {
  readonly asked: ThresholdsAsked;
  readonly questions: readonly Question[];
  readonly found: Turns;
  readonly standing: Standing;
  readonly script: string;
}

/** The names of members that accepted changes admit. */
function admitted(changes: readonly Change[], outcomes: ReadonlyMap<number, Outcome>): Record<string, string> {
  const named = changes.flatMap(({ what, id, name }) => {
    const isAdmitted = what.kind === "admit" && outcomes.get(id)?.kind === "accepted";
    return isAdmitted && name !== undefined ? [[what.code ?? "", name]] : [];
  });
  return Object.fromEntries(named);
}

/** The names of chairs that changes open, by the changes' numbers. */
function namedBy(changes: readonly Change[]): Record<number, string> {
  return Object.fromEntries(changes.flatMap(({ id, chairName }) => (chairName ? [[id, chairName]] : [])));
}

/** The registers, to which each base is sent once. */
export class Counter {
  readonly boards: Boards;
  readonly #numbers = new Map<string, Promise<number>>();
  #last = 0;

  constructor(boards: Boards) {
    this.boards = boards;
  }

  /** The number of a base's script, which is sent first if it isn't among those that the engine keeps. */
  #number(script: string): Promise<number> {
    const known = this.#numbers.get(script);
    if (known) return known;
    const number = (this.#last += 1);
    const sent = this.boards.ask("base", { number, script }).answer.then(() => number);
    this.#numbers.set(script, sent);
    const [oldest] = this.#numbers.keys();
    if (this.#numbers.size > MOST_BASES && oldest !== undefined) this.#numbers.delete(oldest);
    sent.catch(() => this.#numbers.delete(script));
    return sent;
  }

  async #board({ script }: Base, changes: readonly Change[]): Promise<Board> {
    return { base: await this.#number(script), changes };
  }

  /** A board with its base, as workers that don't have it are sent it. */
  async #place(base: Base, changes: readonly Change[]): Promise<Place> {
    const board = await this.#board(base, changes);
    return { base: { number: board.base, script: base.script }, board };
  }

  /** The script of a table's members. */
  tableScript(rows: readonly MemberRow[]): Promise<string> {
    return this.boards.ask("table", rows).answer;
  }

  /** Counts a base, and the board after the changes. */
  async count(base: Base, changes: readonly Change[], majorities: readonly Majority[]): Promise<Counted> {
    const board = await this.#board(base, changes);
    const { answer } = this.boards.ask("count", { ...board, majorities });
    const { before, after, opening, standing, outcomes, commands } = await answer;
    return new Counted(
      base,
      majorities,
      commands,
      readings(before),
      readings(after),
      outcomes,
      new Standing(opening, base),
      new Standing(standing, base, admitted(changes, outcomes), namedBy(changes)),
    );
  }

  /** Counts a sweep over the base of a count, or over its changed board. */
  async sweep(of: Counted, changes: readonly Change[], asked: SweepAsked, report: Report): Promise<Task<Curve>> {
    const isBase = asked.on === "base";
    const { base, majorities } = of;
    const place = await this.#place(base, isBase ? [] : changes);
    const { answer, cancel } = sweepOver(this.boards, place, majorities, asked, report);
    const commands = isBase ? [] : of.commands;
    const curve = answer.then((it): Curve => {
      const script = sweepScript(base, commands, it.points, majorities);
      return { ...it, asked, majorities, standing: isBase ? of.opening : of.standing, script };
    });
    return { answer: curve, cancel };
  }

  /** Finds the thresholds of a member or a chair over the base of a count, or over its changed board. */
  async thresholds(
    of: Counted,
    changes: readonly Change[],
    asked: ThresholdsAsked,
    report: Report,
  ): Promise<Task<Thresholds>> {
    const isBase = asked.on === "base";
    const { base, majorities } = of;
    const place = await this.#place(base, isBase ? [] : changes);
    const { answer, cancel } = thresholdsOver(this.boards, place, majorities, asked, report);
    const thresholds = answer.then(({ questions, found }): Thresholds => {
      const sides = found.turns.flatMap((it) => it.commands).map((commands) => ({ commands }));
      const script = sweepScript(base, isBase ? [] : of.commands, sides, majorities);
      return { asked, questions, found, standing: isBase ? of.opening : of.standing, script };
    });
    return { answer: thresholds, cancel };
  }

  /** Tries single moves on a changed board. */
  async best(
    base: Base,
    changes: readonly Change[],
    ask: Omit<Orders["best"]["ask"], keyof Board>,
    report: Report,
  ): Promise<Task<readonly Tried[]>> {
    return movesOver(this.boards, await this.#place(base, changes), ask, report);
  }

  /** Whether the script of a count gives the count's readings. */
  isGiven({ script, before, after }: Counted): Promise<boolean> {
    return this.boards.ask("check", { script, readings: [...before.values(), ...after.values()] }).answer;
  }

  /** The text that `board replay` prints for a script. */
  lines(script: string): Promise<string> {
    return this.boards.ask("lines", script).answer;
  }
}

/** The script of steps, each with all commands up to it: the base and its readings, then what each step adds. */
export function stepsScript(
  { script }: Base,
  steps: readonly (readonly Command[])[],
  majorities: readonly Majority[],
): string {
  const reads = readRecords(majorities);
  const added = steps.map((it, at) => it.slice(steps[at - 1]?.length ?? 0));
  return scriptWith(script, [...reads, ...added.flatMap((it) => [...it.map(recordOf), ...reads])]);
}

/** The script of a sweep: the base, the commands before it, and for each point its commands and readings. */
function sweepScript(
  base: Base,
  commands: readonly Command[],
  points: readonly Pick<Point, "commands">[],
  majorities: readonly Majority[],
): string {
  const reads = readRecords(majorities);
  const steps = points.flatMap((it) => [...it.commands.map(recordOf), ...reads]);
  return scriptWith(base.script, [...commands.map(recordOf), ...steps]);
}
