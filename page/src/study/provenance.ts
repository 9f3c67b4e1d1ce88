/** The provenance of figures: version, and the hashes of sources, module, table, scripts and lines. */
import type { App, Shown } from "../views/app";
import { hashOf, MODULE_HASH, RELEASED, SOURCES_HASH, VERSION } from "./made";
import { bibText } from "../exports/tex";
import { withoutControls } from "./names";

/** A script, and what it gives the readings of. */
export interface Source {
  readonly of: string;
  readonly script: string;
}

/** The script of a study's base and its changes. */
export function studySource({ counted }: Shown): Source {
  return { of: "", script: counted.script };
}

/** Where the numbers of a file come from, each in a line. */
export interface Provenance {
  readonly counted: string;
  readonly module: string;
  readonly table: string;
  /** The hashes of the scripts that give the numbers, and of their lines. */
  readonly scripts: readonly string[];
  readonly date: string;
  readonly check: string;
  readonly choices: readonly string[];
}

export async function provenanceOf(app: App, { study }: Shown, sources: readonly Source[]): Promise<Provenance> {
  const hashes = await Promise.all(sources.map((it) => sourceLines(app, it)));
  return {
    counted: `counted by board ${VERSION}, sources ${SOURCES_HASH}`,
    module: `module board.wasm sha256 ${MODULE_HASH}`,
    table: `table ${oneLine(study.name)} sha256 ${study.base.hash || "none: the study came as a script"}`,
    scripts: hashes.flat(),
    date: `date ${today()}`,
    check: "to check: board replay < SCRIPT.csv | sha256sum prints the hash of the lines",
    choices: study.base.choices.map((it) => oneLine(`choice: ${it}`)),
  };
}

/** The first lines of each exported file. */
export function firstLines({ counted, module, table, scripts, date, check, choices }: Provenance): string[] {
  return [counted, module, table, ...scripts, date, check, ...choices];
}

async function sourceLines(app: App, { of, script }: Source): Promise<string[]> {
  const lines = await app.counter.lines(script);
  const words = of ? ` of ${oneLine(of)}` : "";
  return [`script${words} sha256 ${await hashOf(script)}`, `lines${words} sha256 ${await hashOf(lines)}`];
}

function today(): string {
  return new Date().toISOString().slice(0, 10);
}

function oneLine(text: string): string {
  return text.replace(/\s+/g, " ");
}

/** The author, as in CITATION.cff. */
const AUTHOR = "The board project";

/** How to cite: the sentence that a journal prints, and an entry of plain BibTeX. */
export interface Citation {
  readonly text: string;
  readonly bibtex: string;
}

/** The citation of numbers from a study's script, by its hash. An exported file has the other hashes. */
export function citationOf(name: string, hash: string): Citation {
  const [year, title] = [RELEASED.slice(0, 4), "board: a proved register of voting power"];
  const study = withoutControls(oneLine(name)).trim();
  const bibtex = [
    "@misc{board,",
    `  author = {{${AUTHOR}}},`,
    `  title = {{${title}}},`,
    `  year = {${year}},`,
    `  howpublished = {Computer program, version ${VERSION} of ${RELEASED}},`,
    `  note = {Numbers for ${bibText(study)}: script with SHA-256 ${hash}},`,
    "}",
  ];
  const text = `${AUTHOR} (${year}). ${title}, version ${VERSION} of ${RELEASED}. Computer program. Numbers for ` +
    `${study}: script with SHA-256 ${hash}.`;
  return { text, bibtex: bibtex.join("\n") };
}

/** How to cite what is shown. */
export async function citation({ study, counted }: Shown): Promise<Citation> {
  return citationOf(study.name, await hashOf(counted.script));
}
