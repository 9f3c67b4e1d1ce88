/** The dialog for a chair's name. */
import type { App } from "./app";
import { openDialog } from "./dialogs";
import { h } from "./dom";
import { nameOf, withChairName } from "../study/naming";
import { fieldForm, readField } from "./field";

/** Asks for a chair's name. */
export function openChairName(app: App, chair: number): void {
  openDialog("chair-name", `The name of chair ${chair}`, (close) => {
    const standing = app.shown?.counted.standing;
    const value = standing?.given(chair) ?? "";
    const field = readField("chair-name-text", "Name", nameOf, { value, dir: "auto" });
    const take = (name: string) => {
      close();
      app.take(withChairName(app.study, chair, standing?.opening(chair), name));
    };
    const words = "Without a name of its own, a chair is named after its member with the most votes.";
    return [fieldForm(field, "Name it", take), h("p", { class: "note" }, words)];
  });
}
