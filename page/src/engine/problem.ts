/** Why an order wasn't carried out, as plain data and as an error. */

/** `name` is that of a refusal or a fault of the register, and `record` the number of its record, or 0. */
export interface Problem {
  readonly message: string;
  readonly name: string;
  readonly record: number;
}

/** An order that the register, the module or the page refused. */
export class Refusal extends Error {
  override readonly name: string;
  readonly record: number;

  constructor({ message, name, record }: Problem) {
    super(message);
    this.name = name;
    this.record = record;
  }
}

/** What was thrown, as data. */
export function problemOf(why: unknown): Problem {
  if (!(why instanceof Error)) return { message: String(why), name: "", record: 0 };
  const { code, record } = why as { code?: string; record?: number };
  return { message: why.message, name: code ?? why.name, record: record ?? 0 };
}
