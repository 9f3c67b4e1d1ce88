/** What the tests of tables use of the page's reader. */
export { guessedLayout, layoutWith } from "../src/tables/columns";
export { readTable } from "../src/tables/read";
export { isStrict, strictTable } from "../src/tables/strict";
export { sheetOf } from "../src/tables/text";
export { textOfBytes } from "../src/tables/bytes";
export { errorWords, plainCell, raised } from "../src/tables/cells";
export { bare, hasTable, sheetsOfHtml } from "../src/tables/html";
export { contentsOf } from "../src/tables/sources";
export { default as Zip } from "jszip";
export { partsOfXlsx } from "../src/engine/zip";
export { gridOf } from "../src/tables/grid";
export {
  CellCount, checkSize, checkTags, countUpTo, MOST_CELLS, MOST_FILE, MOST_FILES, MOST_LINES, MOST_PART, MOST_TAGS,
  MOST_TEXT,
} from "../src/tables/limits";
export { withoutMarks } from "../src/tables/numbers";
export { madeCodes } from "../src/tables/codes";
