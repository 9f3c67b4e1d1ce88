/** A script that is shown once it is wanted. */
import { copy } from "../exports/clipboard";
import { button, h } from "./dom";

/** The script that gives some numbers as they are now, closed at first. */
export function scriptDetails(id: string, of: string, script: () => string): HTMLElement {
  const isOpen = document.getElementById(id)?.closest("details")?.open ?? false;
  const place = h("pre", { id, tabindex: 0, role: "region", "aria-label": `Script of ${of}` }, isOpen && script());
  const ontoggle = () => (place.textContent = details.open ? script() : "");
  const details: HTMLDetailsElement = h("details", { live: true, open: isOpen, ontoggle },
    h("summary", {}, `The script of ${of}`),
    button("Copy", () => void copy(Promise.resolve(script())), { live: true }),
    place,
  );
  return details;
}
