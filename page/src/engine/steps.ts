/** The steps of a study: the boards after each of its changes. */
import type { Change, Study } from "../study/study";

/** The changes that are shown as steps at most. */
export const MOST_STEPS = 60;

/** The lists of changes up to each one that is on. There are none if they are too many to be shown. */
export function stepsOf({ changes }: Study): (readonly Change[])[] {
  const steps = changes.flatMap((it, at) => (it.on ? [changes.slice(0, at + 1)] : []));
  return steps.length <= MOST_STEPS ? steps : [];
}
