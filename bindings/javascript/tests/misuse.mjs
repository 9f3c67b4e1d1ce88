// What a call throws.
import { fail } from "node:assert/strict";
import { Refused } from "voting-board";

/** The error that a call throws. */
export function thrown(call) {
  try {
    call();
  } catch (why) {
    return why;
  }
  return fail("nothing is thrown");
}

/** The name, the number and the message of a call's refusal. */
export function refused(call) {
  const why = thrown(call);
  if (!(why instanceof Refused)) throw why;
  return [why.code, why.number, why.message];
}

/** The message of a call's TypeError. */
export function wrongType(call) {
  const why = thrown(call);
  if (!(why instanceof TypeError)) throw why;
  return why.message;
}
