/** Names that are edited: of a member and of a chair. */
import type { Typed } from "./amounts";
import type { Change, Naming, Study } from "./study";
import { chairKey } from "../engine/standing";

/** The most characters of a name. */
export const LONGEST_NAME = 200;

/** The name in a text, without blanks around it; or why it can't be a name. */
export function nameOf(text: string): Typed<string> {
  const value = text.trim();
  if (value.length <= LONGEST_NAME) return { value };
  return { wrong: `This name has ${value.length} characters; ${LONGEST_NAME} are the most.` };
}

/** A change without the name of a member, which the base has from now on. */
function unnamed(change: Change, code: string): Change {
  const { name, ...rest } = change;
  return name !== undefined && "code" in change.what && change.what.code === code ? rest : change;
}

/** Names by keys, with another name at a key, or none. */
function withName(names: Readonly<Record<string, string>>, key: string, name: string): Record<string, string> {
  const { [key]: _, ...others } = names;
  return name ? { ...others, [key]: name } : others;
}

/** The study with chairs that are named by something else. */
export function withNaming(study: Study, naming: Naming): Study {
  const { naming: _, ...base } = study.base;
  return { ...study, base: naming === "given" ? base : { ...base, naming } };
}

/** The study with another name of a member, of the table or admitted. */
export function withMemberName(study: Study, code: string, name: string): Study {
  const without = (changes: readonly Change[]) => changes.map((it) => unnamed(it, code));
  const scenarios = study.scenarios.map((it) => ({ ...it, changes: without(it.changes) }));
  const names = withName(study.base.names, code, name);
  return { ...study, base: { ...study.base, names }, changes: without(study.changes), scenarios };
}

/** A change with another name of the chair that it opens, or none. */
function opening(change: Change, chairName: string): Change {
  const { chairName: _, ...rest } = change;
  return chairName ? { ...rest, chairName } : rest;
}

/** The study with another name of a chair: of the one that a change opened, by the change's number, or of the base's
 * chair. Without a name the chair is named after its largest member. */
export function withChairName(study: Study, chair: number, by: number | undefined, name: string): Study {
  const key = chairKey(chair, by !== undefined);
  const chairNames = withName(study.base.chairNames, key, by === undefined ? name : "");
  const named = (changes: readonly Change[]) => changes.map((it) => (it.id === by ? opening(it, name) : it));
  const scenarios = study.scenarios.map((it) => ({ ...it, changes: named(it.changes) }));
  return { ...study, base: { ...study.base, chairNames }, changes: named(study.changes), scenarios };
}
