/** Exact fractions, and decimals of them: each is rounded once, half to even, in whole-number arithmetic. */
import { fraction, type Fraction } from "../../../bindings/javascript/src/fraction";

/** A numerator over a denominator above 0, of any size, which may have a common divisor. */
export interface Quotient {
  readonly numerator: bigint;
  readonly denominator: bigint;
}

/** A fraction in lowest terms: the difference of two of the package's may be beyond its numbers. Only this module makes
 * one. */
export interface Ratio extends Quotient {}

export const ZERO: Ratio = { numerator: 0n, denominator: 1n };

/** A fraction in lowest terms of whole numbers, of which the second is above 0. */
export function reduced(numerator: bigint, denominator: bigint): Ratio {
  let [one, other] = [numerator < 0n ? -numerator : numerator, denominator];
  while (other !== 0n) [one, other] = [other, one % other];
  return { numerator: numerator / one, denominator: denominator / one };
}

/** The fraction in lowest terms of whole numbers of at most 2^53, or null if the denominator is 0. */
export function over(numerator: number, denominator: number): Ratio | null {
  return exact(fraction(numerator, denominator));
}

/** A fraction of the package, which is in lowest terms, or null. */
export function exact(fraction: Fraction | null): Ratio | null {
  return fraction && { numerator: BigInt(fraction.numerator), denominator: BigInt(fraction.denominator) };
}

/** A fraction as text, or `-`. */
export function fractionText(ratio: Ratio | null): string {
  return ratio === null ? "-" : `${ratio.numerator}/${ratio.denominator}`;
}

/** The difference from `before` to `after`, which isn't reduced: most are compared and dropped. */
export function apart(after: Quotient, before: Quotient): Quotient {
  const numerator = after.numerator * before.denominator - before.numerator * after.denominator;
  return { numerator, denominator: after.denominator * before.denominator };
}

/** The difference from `before` to `after`, or null if one is missing. */
export function difference(after: Ratio | null, before: Ratio | null): Ratio | null {
  if (after === null || before === null) return null;
  const { numerator, denominator } = apart(after, before);
  return reduced(numerator, denominator);
}

/** The sum of fractions. */
export function sum(ratios: readonly Ratio[]): Ratio {
  return ratios.reduce((one, other) => reduced(
    one.numerator * other.denominator + other.numerator * one.denominator, one.denominator * other.denominator,
  ), ZERO);
}

/** The quotient of two fractions, or null if the second is 0 or one is missing. */
export function quotient(one: Ratio | null | undefined, other: Ratio | null | undefined): Ratio | null {
  if (!one || !other || other.numerator === 0n) return null;
  const [numerator, denominator] = [one.numerator * other.denominator, one.denominator * other.numerator];
  return denominator < 0n ? reduced(-numerator, -denominator) : reduced(numerator, denominator);
}

/** Less than 0, 0 or more: as `left` is less than, equal to or more than `right`. */
export function compared(left: Quotient, right: Quotient): number {
  const [here, there] = [left.numerator * right.denominator, right.numerator * left.denominator];
  return here < there ? -1 : here > there ? 1 : 0;
}

/** The whole number nearest to a fraction, or to that many times the fraction, half to even. */
export function nearest({ numerator: some, denominator }: Ratio, times = 1n): bigint {
  const numerator = some * times;
  let [whole, rest] = [numerator / denominator, numerator % denominator];
  if (rest < 0n) [whole, rest] = [whole - 1n, rest + denominator];
  const twice = 2n * rest;
  return twice > denominator || (twice === denominator && whole % 2n !== 0n) ? whole + 1n : whole;
}

/** A fraction, or that many times the fraction, as a decimal with some places. */
export function rounded(ratio: Ratio, places: number, times = 1n): string {
  const unit = 10n ** BigInt(places);
  const units = nearest(ratio, times * unit);
  const size = units < 0n ? -units : units;
  const part = places === 0 ? "" : `.${(size % unit).toString().padStart(places, "0")}`;
  return `${units < 0n ? "-" : ""}${size / unit}${part}`;
}

/** A fraction in per cent. */
export function percent(ratio: Ratio, places: number): string {
  return rounded(ratio, places, 100n);
}

/** A decimal with its sign even if it is above 0. */
export function signed(decimal: string): string {
  return decimal.startsWith("-") || !/[1-9]/.test(decimal) ? decimal : `+${decimal}`;
}

/** The value of a plain decimal such as `12.5`, as a fraction. */
export function decimalRatio(text: string): Ratio {
  const [whole = "", part = ""] = text.split(".");
  return reduced(BigInt(whole + part), 10n ** BigInt(part.length));
}

/** A fraction for drawing: the one place where a number becomes a floating one. */
export function drawn(ratio: Ratio): number {
  return Number((ratio.numerator * 10n ** 12n) / ratio.denominator) / 1e12;
}

/** A whole number with commas between thousands. */
export function grouped(whole: number | bigint): string {
  return whole.toString().replace(/\B(?=(?:\d{3})+$)/g, ",");
}

/** A number of things. */
export function counted(many: number, thing: string): string {
  return `${grouped(many)} ${thing}${many === 1 ? "" : "s"}`;
}
