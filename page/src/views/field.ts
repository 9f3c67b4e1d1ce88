/** Fields of a form: what is typed is read, or a sentence under the field says what would be right. */
import type { Typed } from "../study/amounts";
import { h, type Attributes } from "./dom";

/** A field with its label and the place of its sentence. */
export interface Field<Value> {
  readonly label: HTMLLabelElement;
  readonly input: HTMLInputElement;
  readonly wrong: HTMLElement;
  /** The value of its text, or null after its sentence is shown. */
  check(): Value | null;
  /** The same, and the field has the focus if there is no value. */
  read(): Value | null;
}

/** Shows why the text of an input means nothing, or that it is right. */
export function mark(input: HTMLInputElement, place: HTMLElement, wrong: string): void {
  place.textContent = wrong;
  if (wrong) input.setAttribute("aria-invalid", "true");
  else input.removeAttribute("aria-invalid");
}

/** A field whose text is read by a function. */
export function readField<Value>(
  id: string,
  label: string,
  read: (text: string) => Typed<Value>,
  attributes: Attributes = {},
): Field<Value> {
  const wrong = h("p", { id: `${id}-wrong`, class: "wrong", role: "alert" });
  const input: HTMLInputElement = h("input", {
    id,
    autocomplete: "off",
    "aria-describedby": wrong.id,
    oninput: () => mark(input, wrong, ""),
    ...attributes,
  });
  const check = () => {
    const found = read(input.value);
    mark(input, wrong, "wrong" in found ? found.wrong : "");
    return "value" in found ? found.value : null;
  };
  const checkAndFocus = () => {
    const value = check();
    if (value === null) input.focus();
    return value;
  };
  return { label: h("label", { for: id }, label), input, wrong, check, read: checkAndFocus };
}

/** A form of one field with a button of the field's id and `-take`, which takes the value. */
export function fieldForm<Value>(field: Field<Value>, act: string, take: (value: Value) => void): HTMLFormElement {
  const submit = (event: Event) => {
    event.preventDefault();
    const value = field.read();
    if (value !== null) take(value);
  };
  const button = h("button", { id: `${field.input.id}-take` }, act);
  return h("form", { class: "field", onsubmit: submit }, field.label, field.input, button, field.wrong);
}

/** A form of a list, whose id ends in `-to`, with a button, whose id ends in `-take`, which takes the choice. An option
 * without a key is none. */
export function choiceForm(
  id: string,
  label: string,
  options: readonly (readonly [string, string])[],
  act: string,
  take: (value: string) => void,
): HTMLFormElement {
  const made = options.map(([key, words]) => h("option", { value: key }, words));
  const list = h("select", { id: `${id}-to`, required: true }, made);
  const submit = (event: Event) => {
    event.preventDefault();
    take(list.value);
  };
  const button = h("button", { id: `${id}-take` }, act);
  return h("form", { class: "field", onsubmit: submit }, h("label", { for: list.id }, label), list, button);
}
