/** The dialog that says why something wasn't done. */
import { openDialog } from "./dialogs";
import { button, h } from "./dom";

/** Says why something can't be done, and what stands then; or under another title what a person must know. */
export function refuse(why: string, then = "", title = "This can't be done"): void {
  openDialog("refusal", title, (close) => [
    h("p", { class: "wrong", role: "alert" }, why),
    then ? h("p", {}, then) : null,
    button("OK", close, { id: "refusal-ok" }),
  ]);
}

/** Says why a task failed, if it does. */
export function orRefuse(task: Promise<unknown>): void {
  task.catch((why: unknown) => refuse(why instanceof Error ? why.message : String(why)));
}
