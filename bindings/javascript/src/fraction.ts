/** Exact fractions. */

const divisor = (one: number, other: number): number => {
  while (other !== 0) [one, other] = [other, one % other];
  return one;
};

/**
 * An exact fraction in lowest terms. As a number it is its value, so `<` compares; `compare` compares exactly; as text
 * and in JSON it is "3/5", or "1" if it is whole.
 *
 * @example
 * const half = new Fraction(2, 4);
 * `${half}`; // "1/2"
 * half < new Fraction(2, 3); // true
 * Number(half); // 0.5
 */
export class Fraction {
  readonly numerator: number;
  readonly denominator: number;

  /** Both are whole numbers of at most 2^53, and the denominator is above 0. Others are a RangeError. */
  constructor(numerator: number, denominator: number) {
    if (!Number.isSafeInteger(numerator) || !Number.isSafeInteger(denominator) || denominator <= 0) {
      throw new RangeError(`${numerator}/${denominator} is no fraction of whole numbers with a denominator above 0`);
    }
    const common = divisor(Math.abs(numerator), denominator);
    this.numerator = numerator / common;
    this.denominator = denominator / common;
  }

  /** Below 0 if this is less than the other fraction, 0 if both are equal, above 0 if this is greater. Exact. */
  compare(other: Fraction): number {
    const [one, two] = [this.numerator * other.denominator, other.numerator * this.denominator];
    if (Number.isSafeInteger(one) && Number.isSafeInteger(two)) return Math.sign(one - two);
    const [left, right] = [BigInt(this.numerator), BigInt(other.numerator)];
    const difference = left * BigInt(other.denominator) - right * BigInt(this.denominator);
    return difference < 0 ? -1 : Number(difference > 0);
  }

  /**
   * The exact difference to another fraction: this one minus that one.
   *
   * @example
   * `${new Fraction(1, 3).minus(new Fraction(1, 2))}`; // "-1/6"
   */
  minus(other: Fraction): Difference {
    const [one, two] = [BigInt(this.denominator), BigInt(other.denominator)];
    return new Difference(BigInt(this.numerator) * two - BigInt(other.numerator) * one, one * two);
  }

  /** Whether both are the same number. */
  equals(other: Fraction): boolean {
    return this.compare(other) === 0;
  }

  /** The nearest number. */
  valueOf(): number {
    return this.numerator / this.denominator;
  }

  toString(): string {
    return this.denominator === 1 ? `${this.numerator}` : `${this.numerator}/${this.denominator}`;
  }

  toJSON(): string {
    return this.toString();
  }

  /** Node's console shows "3/5". */
  [Symbol.for("nodejs.util.inspect.custom")](): string {
    return this.toString();
  }
}

/**
 * The exact difference of two fractions in lowest terms, such as a gain or, below 0, a loss. Its numbers may be above
 * 2^53, so they are bigints. As a number it is its value, and as text and in JSON it is "-1/6", or "1" if it is whole.
 */
export class Difference {
  readonly numerator: bigint;
  readonly denominator: bigint;

  /** @internal */
  constructor(numerator: bigint, denominator: bigint) {
    let [common, rest] = [numerator < 0n ? -numerator : numerator, denominator];
    while (rest !== 0n) [common, rest] = [rest, common % rest];
    this.numerator = numerator / common;
    this.denominator = denominator / common;
  }

  /** Below 0 if this is less than the other difference, 0 if both are equal, above 0 if this is greater. Exact. */
  compare(other: Difference): number {
    const difference = this.numerator * other.denominator - other.numerator * this.denominator;
    return difference < 0n ? -1 : Number(difference > 0n);
  }

  /** Its value as a number, to within the last place. */
  valueOf(): number {
    return Number(this.numerator) / Number(this.denominator);
  }

  toString(): string {
    return this.denominator === 1n ? `${this.numerator}` : `${this.numerator}/${this.denominator}`;
  }

  toJSON(): string {
    return this.toString();
  }

  /** Node's console shows "-1/6". */
  [Symbol.for("nodejs.util.inspect.custom")](): string {
    return this.toString();
  }
}

/** A fraction, or null if its denominator would be 0. */
export const fraction = (numerator: number, denominator: number): Fraction | null =>
  denominator === 0 ? null : new Fraction(numerator, denominator);
