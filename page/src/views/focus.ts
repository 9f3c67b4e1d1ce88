/** Focus that isn't lost when the element that has it goes. */

/** Runs an act that changes what is in a place. If the focus was in it and is lost, or on what is disabled, an heir has
 * it. */
export function keepFocus(place: HTMLElement, heir: () => HTMLElement, act: () => void): void {
  const hadFocus = place.contains(document.activeElement);
  act();
  const { activeElement } = document;
  const isLost = !place.contains(activeElement) || activeElement?.matches(":disabled");
  if (hadFocus && isLost) heir().focus({ preventScroll: true });
}

/** Disables a control or enables it. If it had the focus and is disabled, an heir has it. */
export function setDisabled(control: HTMLButtonElement, isDisabled: boolean, heir: HTMLElement): void {
  const hadFocus = control === document.activeElement;
  control.disabled = isDisabled;
  if (hadFocus && isDisabled) heir.focus();
}
