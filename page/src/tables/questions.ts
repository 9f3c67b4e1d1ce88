/** Questions about a table, with the answers given so far. */
import type { Answers, AskedNumber, Option, Question, QuestionKind } from "./types";

/** A question to be asked. `choice` has, for each option, the sentence for the list of choices. */
export interface Asked {
  readonly id: string;
  readonly kind: QuestionKind;
  readonly row?: number;
  readonly words: string;
  readonly number?: AskedNumber;
  readonly options: readonly (Option & { readonly choice: string })[];
}

/** Keeps the questions in the order in which they come up. */
export class Questions {
  readonly all: Question[] = [];
  readonly #answers: Answers;

  constructor(answers: Answers) {
    this.#answers = answers;
  }

  /** Asks, and returns the key of the chosen option; null while the question is open. */
  ask({ id, kind, row = 0, words, number, options }: Asked): string | null {
    const key = this.#answers.chosen.get(id);
    const chosen = options.find((it) => it.key === key);
    const shown = options.map(({ key: own, words: text }) => ({ key: own, words: text }));
    const answer = chosen?.key ?? null;
    this.all.push({
      id, kind, row, words, options: shown, answer, number: number ?? null, choice: chosen?.choice ?? "",
    });
    return answer;
  }

  /** The key that is chosen for a question, even if it isn't asked yet. */
  chosen(id: string): string | null {
    return this.#answers.chosen.get(id) ?? null;
  }

  /** The number that is typed for a question, if it is in a range. */
  numberFor(id: string, low: number, high: number): number | null {
    const number = Number(this.#answers.chosen.get(`${id}-number`) ?? "x");
    return Number.isInteger(number) && low <= number && number <= high ? number : null;
  }

  /** Whether a question was asked. */
  isAsked(id: string): boolean {
    return this.all.some((it) => it.id === id);
  }

  /** Whether a question of some kinds is open. */
  hasOpen(...kinds: readonly QuestionKind[]): boolean {
    return this.all.some(({ kind, answer }) => answer === null && kinds.includes(kind));
  }

  /** Whether all are answered. An answer without a choice takes nothing. */
  get areAnswered(): boolean {
    return this.all.every(({ answer, choice }) => answer !== null && choice !== "");
  }
}
