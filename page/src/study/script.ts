/** The texts of scripts for `board replay`. */
import { recordOf as record } from "../../../bindings/javascript/src/commands";
import type { Command } from "./study";
import type { Majority } from "./words";

/** The record of a command. */
export const recordOf: (command: Command) => string = record;

/** A publication, and a reading at each majority. */
export function readRecords(majorities: readonly Majority[]): string[] {
  return ["publish", ...majorities.map((it) => `read,1,${it}`)];
}

/** The records after a base, as a script. */
export function scriptWith(base: string, records: readonly string[]): string {
  return `${base}${records.join("\n")}\n`;
}

/** The script of a study: the base, its readings, the changes, and readings again. */
export function scriptOf(base: string, commands: readonly Command[], majorities: readonly Majority[]): string {
  const reads = readRecords(majorities);
  return scriptWith(base, [...reads, ...commands.map(recordOf), ...reads]);
}
