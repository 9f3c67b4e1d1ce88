/** Thresholds without a range, in words: where each statement on a chair begins to hold, all of it made here. */
import { memberWords } from "../study/commandWords";
import type { Thresholds, ThresholdsAsked } from "./count";
import { STATEMENT_WORDS, thresholdWords } from "../charts/curveModel";
import { grouped, over, signed, type Ratio } from "../study/fractions";
import { isolated } from "../study/names";
import { MEASURE_NAMES } from "../cited";
import type { Power, Question, Statement, Turn } from "./orders";
import type { Standing } from "./standing";
import { MAJORITY, MOST_VOTES, type Majority } from "../study/words";

/** A statement on a chair at a majority. */
export interface ThresholdRow {
  readonly majority: Majority;
  readonly what: Statement;
  /** The statement in words, such as "has a veto". */
  readonly words: string;
  /** The least votes from which it holds, or null if it holds everywhere or nowhere. */
  readonly votes: number | null;
  readonly share: Ratio | null;
  /** These votes less those that the chair or the member has, in words. */
  readonly distance: string;
  /** All of it as a sentence; `short` is the one of a statement that holds everywhere or nowhere. */
  readonly sentence: string;
  readonly short: string;
}

function chairWords(standing: Standing, chair: number): string {
  return `chair ${chair} ${isolated(standing.name(chair))}`;
}

/** Who is asked for, such as "chair 5 Hills on the base". */
export function whoWords({ who, on }: ThresholdsAsked, standing: Standing): string {
  const name = who.kind === "chair"
    ? chairWords(standing, who.chair)
    : memberWords(who.code, standing.memberName(who.code));
  return `${name} on ${on === "base" ? "the base" : "the changed board"}`;
}

/** What the sentences are about: the chair, and whose votes are varied. */
export function aboutWords({ asked: { who }, found, standing }: Thresholds): string {
  const chair = chairWords(standing, found.chair);
  const now = `${grouped(found.votes)} votes now`;
  const others = "The votes of all others stay.";
  if (who.kind === "chair") return `It is ${chair}, with ${now}; its members share votes in proportion. ${others}`;
  const member = memberWords(who.code, standing.memberName(who.code));
  return `It is ${chair}, and the votes are those of its member ${member}, with ${now}. ${others}`;
}

function distanceWords(votes: number, now: number): string {
  return votes <= now ? `${signed(grouped(votes - now))}, holds now` : signed(grouped(votes - now));
}

function distanceSentence(votes: number, now: number): string {
  if (votes > now) return `That is ${grouped(votes - now)} more than now.`;
  if (votes < now) return `It holds now: that is ${grouped(now - votes)} fewer than now.`;
  return "It holds now: these are the votes now.";
}

/** The words of a statement that doesn't turn between no votes and the most votes. */
function everywhere(what: Statement, isTrue: boolean, isKept: boolean): string {
  if (what === "reaches" && isTrue && !isKept) return "with 0 votes already";
  if (what === "keeps" && !isTrue) return "from no number of votes on";
  return isTrue ? "with any number of votes, even with 0" : `with no number of votes up to ${grouped(MOST_VOTES)}`;
}

/** A power that is asked for, in words, such as "a share of power of at least 5 %". */
export function powerWords({ measure, least }: Power): string {
  const [whole = "", part] = least.split(".");
  const number = grouped(BigInt(whole)) + (part ? `.${part}` : "");
  return measure === "swings" ? `at least ${number} swings`
    : `a ${MEASURE_NAMES[measure]} of at least ${number}${measure === "share" ? " %" : ""}`;
}

/** What a question says of a chair, in words. */
function statementWords({ what, other, power }: Question, standing: Standing, isKept: boolean): string {
  if (power) return `${isKept ? "has" : STATEMENT_WORDS[what]} ${powerWords(power)}`;
  return STATEMENT_WORDS[what] + (other === null ? "" : ` than ${chairWords(standing, other)}`);
}

/** Whether two answers are the same. */
function isSame(one: Turn | undefined, other: Turn | undefined): boolean {
  return one?.isAtLow === other?.isAtLow && one?.votes === other?.votes;
}

/** The rows of all statements, by majority. What is reached and kept from the same votes on is one row. */
export function thresholdRows({ questions, found, standing }: Thresholds, digits: number): ThresholdRow[] {
  return questions.flatMap((question, at): ThresholdRow[] => {
    const { majority, what } = question;
    const turn = found.turns[at];
    const isKept = isSame(turn, found.turns[what === "keeps" ? at - 1 : at + 1]);
    if (!turn || (what === "keeps" && isKept)) return [];
    const { isAtLow, votes } = turn;
    const words = statementWords(question, standing, isKept);
    if (votes === null) {
      const short = everywhere(what, isAtLow, isKept);
      const sentence = `${MAJORITY[majority].at} it ${words} ${short}.`;
      return [{ majority, what, words, votes, share: null, distance: "", sentence, short }];
    }
    const share = over(votes, votes + found.rest);
    const line = thresholdWords({ majority, what, isFrom: !isAtLow, votes, share }, digits, words);
    const sentence = `${line} ${distanceSentence(votes, found.votes)}`;
    return [{ majority, what, words, votes, share, distance: distanceWords(votes, found.votes), sentence, short: "" }];
  });
}

/** The thresholds as a text, with the lines of their source. */
export function thresholdsText(all: Thresholds, digits: number, source: readonly string[]): string {
  const sentences = thresholdRows(all, digits).map((it) => it.sentence);
  const title = `Thresholds of ${whoWords(all.asked, all.standing)}`;
  return [title, aboutWords(all), "", ...sentences, "", ...source].map((it) => `${it}\n`).join("");
}
