/**
 * The exact voting power of a board, counted over all coalitions of its chairs, and a register of members, votes and
 * chairs. The module board.wasm is compiled from proved source. The compilation and this package, which makes values of
 * its answers, are tested.
 */
import packed from "board.wasm";
import { setPacked } from "./load.js";

setPacked(() => {
  const text = atob(packed);
  const bytes = new Uint8Array(text.length);
  for (let at = 0; at < bytes.length; at++) bytes[at] = text.charCodeAt(at);
  return bytes;
});

export { Command, type CommandParts } from "./commands.js";
export { Difference, Fraction } from "./fraction.js";
export {
  indices,
  indicesOfAll,
  indicesOfMany,
  indicesOfManyInWorkers,
  indicesOfMembers,
  type Chair,
  type Indices,
  type Weights,
} from "./indices.js";
export { load, loadSync, type Source } from "./load.js";
export { MAJORITIES, MEANINGS, REFUSALS, VERSION, type Kind, type Majority } from "./names.js";
export { Refused, type Fault, type Place } from "./refused.js";
export {
  Register, type Commands, type Member, type RegisterOptions, type ScriptOptions, type Votes,
} from "./register.js";
export {
  Replay,
  replay,
  replayFile,
  type Accepted,
  type Outcome,
  type Published,
  type Reading,
  type Refusal,
} from "./replay.js";
export { Script, type Item } from "./script.js";
export type { MemberColumns, MemberRow, MemberTable } from "./tables.js";
export { replayBytes, replayText, type ReplayOptions, type ReplayedBytes, type ReplayedText } from "./text.js";
export type { Whole } from "./values.js";
