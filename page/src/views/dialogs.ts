/** Dialogs: each is made when it opens and removed when it closes. */
import { add, button, h, type Child } from "./dom";

/** What can have the focus first in a dialog. */
const FIRST = ".dialog-body :is(input, select, textarea, button, summary, a[href]):not(:disabled)";

/**
 * Opens a dialog with a heading, and with the focus on the first control of its content. It closes by its button, by
 * Escape and by the function that `content` is given.
 */
export function openDialog(
  id: string,
  title: string,
  content: (close: () => void) => Child,
  onClose = () => {},
): HTMLDialogElement {
  document.getElementById(id)?.remove();
  const back = document.activeElement instanceof HTMLElement ? document.activeElement.id : "";
  const dialog = h("dialog", { id, "aria-labelledby": `${id}-title` });
  const close = () => dialog.close();
  dialog.append(
    h(
      "header",
      {},
      h("h2", { id: `${id}-title` }, title),
      button("Close", close, { class: "close", "aria-label": `Close: ${title}` }),
    ),
    h("div", { class: "dialog-body" }),
  );
  const body = dialog.lastElementChild;
  const children = content(close);
  if (body) add(body, [children]);
  dialog.addEventListener("close", () => {
    dialog.remove();
    onClose();
    document.getElementById(back)?.focus();
  });
  document.body.append(dialog);
  dialog.showModal();
  [...dialog.querySelectorAll<HTMLElement>(FIRST)].find((it) => it.getClientRects().length > 0)?.focus();
  return dialog;
}
