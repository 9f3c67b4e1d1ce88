/** Workbooks as zip files: they are unpacked up to limits, and packed, by the worker alone. */
import JSZip from "jszip";
import { isZip, zipWords } from "../tables/bytes";
import { checkEntries, MOST_PART, MOST_PARTS } from "../tables/limits";
import { contentsOf, type Contents, type Given } from "../tables/sources";
import { Unreadable } from "../tables/types";
import type { Parts } from "../tables/xlsx";

/** The same file at every time. */
const DATE = new Date(Date.UTC(2000, 0, 1));

/** A workbook's zip file, and how many bytes of it were unpacked. */
interface Packed {
  readonly zip: JSZip;
  unpacked: number;
}

/** The text of a part of the zip file; null once it, or all parts together, are too large. */
async function partOf(packed: Packed, name: string): Promise<string | null> {
  if (packed.unpacked > MOST_PARTS) return null;
  return new Promise((resolve, reject) => {
    const decoder = new TextDecoder();
    let [text, size] = ["", 0];
    const stream = packed.zip.file(name)?.internalStream("uint8array");
    stream?.on("data", (piece) => {
      size += piece.length;
      packed.unpacked += piece.length;
      if (size <= MOST_PART && packed.unpacked <= MOST_PARTS) {
        text += decoder.decode(piece, { stream: true });
        return;
      }
      stream.pause();
      resolve(null);
    });
    stream?.on("error", () => reject(new Unreadable("This workbook is damaged.")));
    stream?.on("end", () => resolve(text + decoder.decode()));
    stream?.resume();
  });
}

async function opened(bytes: ArrayBuffer): Promise<JSZip> {
  checkEntries(new Uint8Array(bytes));
  try {
    return await JSZip.loadAsync(bytes);
  } catch {
    throw new Unreadable("This zip file or workbook is damaged, or locked with a password.");
  }
}

/** The parts of a workbook with sheets and what they refer to. Throws `Unreadable` if the file is no workbook. */
export async function partsOfXlsx(bytes: ArrayBuffer): Promise<Parts> {
  const packed = { zip: await opened(bytes), unpacked: 0 };
  const names = Object.keys(packed.zip.files);
  if (!names.includes("xl/workbook.xml")) throw new Unreadable(zipWords(names));
  const parts: Record<string, string | null> = {};
  for (const name of names.filter((it) => /^xl\/(?!theme|drawings|charts|media).*\.(xml|rels)$/.test(it))) {
    parts[name] = await partOf(packed, name);
  }
  return parts;
}

/** Reads what is given; a zip file is unpacked before. */
export async function unpackedContents(given: Given): Promise<Contents> {
  const isPacked = "bytes" in given && isZip(new Uint8Array(given.bytes));
  return contentsOf(isPacked ? { parts: await partsOfXlsx(given.bytes) } : given);
}

/** The zip file of texts by their paths. */
export function packed(texts: Readonly<Record<string, string>>): Promise<Uint8Array> {
  const zip = new JSZip();
  for (const [path, text] of Object.entries(texts)) zip.file(path, text, { date: DATE });
  return zip.generateAsync({ type: "uint8array", compression: "DEFLATE" });
}
