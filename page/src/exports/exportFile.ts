/** Exported files: their names and their texts. */
import type { App } from "../views/app";

/** The most characters of a file's name before its kind: no system takes one of any length. */
const LONGEST = 80;

/** The name of exported files, from the study's. */
export function fileName(app: App): string {
  const name = app.study.name.toLowerCase().replace(/[^a-z0-9]+/g, "-");
  return name.slice(0, LONGEST).replace(/^-|-$/g, "") || "study";
}

/** The content of a file of text. */
export function textFile(content: string, kind: string): Blob {
  return new Blob([content], { type: `${kind};charset=utf-8` });
}
