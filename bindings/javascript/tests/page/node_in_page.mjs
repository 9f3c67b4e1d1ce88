// The parts of Node that the tests use, for a page: a runner, and strict comparisons.
const tests = [];

export function test(name, body) {
  tests.push([name, body]);
}

/** Runs all tests, and returns the number that passed, and the errors of the others. */
export async function ended() {
  const ran = { passed: 0, failed: [] };
  for (const [name, body] of tests) {
    try {
      await body();
      ran.passed += 1;
    } catch (why) {
      ran.failed.push(`${name}: ${why?.stack ?? why}`);
    }
  }
  return ran;
}

export function fail(message) {
  throw new Error(message);
}

export function equal(got, wanted) {
  if (!Object.is(got, wanted)) fail(`${String(got).slice(0, 200)} came, and not ${String(wanted).slice(0, 200)}`);
}

/** A value as text: two are equal if their texts are. The texts of different classes and types differ. */
function textOf(value) {
  if (typeof value !== "object" || value === null) return `${typeof value} ${Object.is(value, -0) ? "-0" : value}`;
  const items = Object.keys(value).sort().map((key) => `${key}: ${textOf(value[key])}`);
  return `${Object.getPrototypeOf(value)?.constructor?.name}(${items.join(", ")})`;
}

export function deepEqual(got, wanted) {
  equal(textOf(got), textOf(wanted));
}
