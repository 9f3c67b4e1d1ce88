// A user's acts, by the page's own controls but in one call: the arguments are the act and its words. The answer, once
// the figures are complete, is whether the page offers the act, or the content that an export would save.
const [act, ...words] = [...arguments].slice(0, -1);
const [answer] = [...arguments].slice(-1);
const at = (id) => document.getElementById(id);

/** Writes into a field as a keyboard does. */
function fill(field, text) {
  field.value = text;
  for (const kind of ["input", "change"]) field.dispatchEvent(new Event(kind, { bubbles: true }));
}

/** Presses a button, if it exists and can be pressed. */
function press(button) {
  if (!button || button.disabled) return false;
  button.click();
  return true;
}

/** Opens a member's menu: the filter finds the member. */
function opened(code) {
  fill(at("filter"), code);
  const isThere = press(at(`chip-${code}`));
  fill(at("filter"), "");
  return isThere;
}

/** Presses a button of a menu; if it isn't there, it closes the menu. */
const offered = (id) => press(at(id)) || !press(document.querySelector("dialog .close"));

/** Writes into a field of a menu and presses its button; if the field doesn't offer that, it closes the menu. */
function taken(field, text, button) {
  if (at(field)) fill(at(field), text);
  const isOffered = at(field)?.value === text && at(field).checkValidity();
  return press(isOffered ? at(button) : document.querySelector("dialog .close")) && isOffered;
}

/** Opens the dialog of an operation on a chair, or closes an empty one: the filter finds the chair. */
function operated(kind, chair) {
  fill(at("filter"), `chair ${chair}`);
  const isThere = press(at(`${kind}-${chair}`));
  fill(at("filter"), "");
  return isThere;
}

/** Ticks several members, given as codes joined by `+`; if one isn't there, the dialog is closed. */
function ticked(codes) {
  press(at("group-open"));
  const boxes = codes.split("+").map((code) => at(`group-tick-${code}`));
  if (boxes.every((it) => it)) return boxes.every(press);
  press(document.querySelector("dialog .close"));
  return false;
}

/** The change in the list at a place, from 0. */
const change = (place) => document.querySelectorAll("#changes > li")[place].dataset.id;

/** The text that a button of the exports would save; it isn't saved. Scripts of workers have URLs, too. */
async function exported(id) {
  const [{ createObjectURL }, { click }, blobs] = [URL, HTMLAnchorElement.prototype, new Map()];
  const blob = await new Promise((take) => {
    URL.createObjectURL = (it) => {
      const url = createObjectURL.call(URL, it);
      blobs.set(url, it);
      return url;
    };
    HTMLAnchorElement.prototype.click = function () {
      take(blobs.get(this.href));
    };
    press(at("export"));
    press(at(id));
  });
  URL.createObjectURL = createObjectURL;
  HTMLAnchorElement.prototype.click = click;
  press(document.querySelector("dialog .close"));
  return blob.text();
}

const acts = {
  move: (who, place) => {
    if (who.includes("+")) return ticked(who) && taken("group-join-to", place, "group-join-take");
    return opened(who) && taken("move-to", place, "move-take");
  },
  votes: (code, text) => {
    const field = text.endsWith("%") ? (/^[+-]/.test(text) ? "votes-own" : "votes-total") : "votes-number";
    return opened(code) && taken(field, text.replace("%", ""), `${field}-take`);
  },
  suspend: (code) => opened(code) && offered("suspend"),
  restore: (code) => opened(code) && offered("restore"),
  withdraw: (code) => opened(code) && press(at("withdraw")),
  admit: (code, votes) => {
    press(at("admit-open"));
    fill(at("admit-code"), code);
    return taken("admit-votes", votes, "admit-take");
  },
  merge: (chair, to) => operated("merge", chair) && taken("merge-to", to, "merge-take"),
  dissolve: (chair, to) => operated("dissolve", chair) && taken("dissolve-to", to, "dissolve-take"),
  split: (to, codes) => ticked(codes) && taken("group-to", to, "group-take"),
  scale: (who, percent) => {
    const [isOpen, id] = /[A-Z]/.test(who) ? [ticked(who), "group"] : [operated("scale", who), "scale"];
    return isOpen && taken(`${id}-percent`, percent.replace("%", ""), `${id}-percent-take`);
  },
  share: (codes, percent, others) => {
    if (!ticked(codes)) return false;
    fill(at("group-others"), others);
    return taken("group-share", percent, "group-share-take");
  },
  open: () => press(at("open-new")),
  close: (chair) => operated("close", chair),
  undo: () => press(at("undo")),
  redo: () => press(at("redo")),
  switch: (place) => press(at(`on-${change(place)}`)),
  remove: (place) => press(at(`remove-${change(place)}`)),
  earlier: (place) => press(at(`up-${change(place)}`)),
};

/** Acts on members and chairs need the list of chairs: on another tab a user goes to it, and comes back. */
function onList() {
  const tab = document.querySelector("#tabs [aria-selected=true]");
  if (!at("chairs").hidden || ["undo", "redo", "switch", "remove", "earlier"].includes(act)) return acts[act](...words);
  press(at("tab-power"));
  const done = acts[act](...words);
  press(tab);
  return done;
}

const found = act === "exported" ? exported(...words) : onList();
(function settle() {
  if (document.documentElement.dataset.state === "counting") setTimeout(settle, 1);
  else Promise.resolve(found).then(answer);
})();
