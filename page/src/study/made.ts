/** The build's records in the page: the version, and the hashes of its sources and of the module. */
import made from "../../out/made.json";
import { sha256 } from "./sha256";

export const VERSION = made.version;
/** The SHA-256 of the list of the page's sources with their hashes: page/build makes it. */
export const SOURCES_HASH = made.sources;
/** The date of the version, in CHANGELOG.md. */
export const RELEASED = made.date;
export const MODULE_HASH = made.module;
/** The hash of the sources for the eye. */
export const SHORT_HASH = SOURCES_HASH.slice(0, 7);

/** The module's bytes. */
export function moduleBytes(): Uint8Array {
  const text = document.getElementById("module")?.textContent ?? "";
  return Uint8Array.from(atob(text.trim()), (letter) => letter.charCodeAt(0));
}

/** The SHA-256 of bytes or of a text, in hexadecimal: the browser's own, or the page's where the browser gives none. */
export async function hashOf(content: Uint8Array | string): Promise<string> {
  const bytes = typeof content === "string" ? new TextEncoder().encode(content) : content;
  if (!globalThis.crypto?.subtle) return sha256(bytes);
  const digest = new Uint8Array(await crypto.subtle.digest("SHA-256", bytes));
  return Array.from(digest, (byte) => byte.toString(16).padStart(2, "0")).join("");
}
