/** The dialog of the independent count: over all coalitions, from the members shown, and compared with the lines. */
import type { App } from "./app";
import { openDialog } from "./dialogs";
import { button, h, paint } from "./dom";
import { grouped } from "../study/fractions";
import type { Reading } from "../engine/reading";
import { MOST_PLAIN } from "../engine/plain";
import { MAJORITY } from "../study/words";

/** Counts a reading once more, and returns how many numbers differ from it. */
async function differing(app: App, reading: Reading): Promise<number> {
  const { chairs, total, majority } = reading;
  const weights = { votes: chairs.map((it) => it.weight), total, majority };
  const label = MAJORITY[majority].label;
  const [winning, ...swings] = await app.wait(`Counting all coalitions again, ${label}.`, async (report) =>
    app.counter.boards.ask("plain", weights, report),
  );
  const wrong = chairs.filter((it, at) => it.swings !== swings[at]).length;
  return wrong + (winning === reading.winning ? 0 : 1);
}

/** Recounts a reading, and writes the result into an item. */
async function compare(app: App, reading: Reading, item: HTMLElement): Promise<void> {
  const { label } = MAJORITY[reading.majority];
  item.textContent = `${label}: counting…`;
  const begun = performance.now();
  const wrong = await differing(app, reading);
  const seconds = ((performance.now() - begun) / 1000).toFixed(1);
  const numbers = `${1 + reading.chairs.length} numbers`;
  const found = wrong ? `${wrong} of ${numbers} DIFFER` : `all ${numbers} are the same`;
  item.textContent = `${label}: ${found}, ${grouped(reading.coalitions)} coalitions in ${seconds} s.`;
  item.classList.toggle("wrong", wrong > 0);
}

const WORDS =
  "This counts the changed board's swings and winning coalitions once more, one coalition after the other, straight " +
  "from the definitions and from the votes of the chairs shown. It is an independent check in this page's own code, " +
  "and the source of no number.";

/** Opens the dialog. */
export function openRecount(app: App): void {
  const { shown } = app;
  if (!shown) return;
  const { standing, after } = shown.counted;
  const many = standing.open().length;
  const isTooMany = many > MOST_PLAIN;
  const list = h("ul", { id: "recount-results", role: "status" });
  const run = async () => {
    paint(list);
    for (const reading of after.values()) {
      const item = h("li", { "data-majority": reading.majority });
      list.append(item);
      await compare(app, reading, item);
    }
  };
  const act = () => void run().catch((why: unknown) => list.append(h("li", { class: "wrong" }, String(why))));
  const limit = `${many} chairs have ${grouped(2 ** many)} coalitions: this check takes at most ${MOST_PLAIN} chairs.`;
  openDialog("recount", "Count again another way: an independent check", () => [
    h("p", {}, WORDS),
    isTooMany ? h("p", { class: "wrong" }, limit) : null,
    button("Count again", act, { id: "recount-run", disabled: isTooMany }),
    list,
  ]);
}
