// Checks of a page for people who don't see it well. Run in the page, it returns an object of checks.
const shapes = "rect, path, circle, ellipse, polygon";
const canvas = Object.assign(document.createElement("canvas"), { width: 1, height: 1 });
const pen = canvas.getContext("2d", { willReadFrequently: true });

/** A colour of a style as red, green, blue and opacity, each from 0 to 1. */
function channels(colour) {
  pen.clearRect(0, 0, 1, 1);
  pen.fillStyle = "#000";
  pen.fillStyle = colour;
  pen.fillRect(0, 0, 1, 1);
  return [...pen.getImageData(0, 0, 1, 1).data].map((it) => it / 255);
}

/** A colour laid over another one. */
const over = ([r, g, b, a], below) => [r, g, b].map((it, at) => it * a + below[at] * (1 - a));

/** The relative luminance, by WCAG. */
const luminance = (colour) => {
  const [r, g, b] = colour.map((it) => (it <= 0.04045 ? it / 12.92 : ((it + 0.055) / 1.055) ** 2.4));
  return 0.2126 * r + 0.7152 * g + 0.0722 * b;
};

/** The contrast of two colours, by WCAG, from 1 to 21. */
function contrast(one, other) {
  const [light, dark] = [luminance(one), luminance(other)].sort((a, b) => b - a);
  return (light + 0.05) / (dark + 0.05);
}

/** The colour that an element paints as a background. */
function paint(thing) {
  const style = getComputedStyle(thing);
  if (!thing.matches(shapes)) return channels(style.backgroundColor);
  if (style.fill === "none" || style.fill.startsWith("url")) return [0, 0, 0, 0];
  const [r, g, b, a] = channels(style.fill);
  return [r, g, b, a * Number(style.fillOpacity) * Number(style.opacity)];
}

/** The opacity of an element together with that of all its parents. */
const opacity = (thing) => (thing ? Number(getComputedStyle(thing).opacity) * opacity(thing.parentElement) : 1);

/** The texts of a page, each with its element and its middle on the screen. */
function texts() {
  const found = [];
  const walk = document.createTreeWalker(document.body, NodeFilter.SHOW_TEXT);
  for (let node = walk.nextNode(); node; node = walk.nextNode()) {
    const thing = node.parentElement;
    if (!node.data.trim() || thing.closest("script, style, noscript, :disabled, [aria-disabled=true]")) continue;
    const range = document.createRange();
    range.selectNodeContents(node);
    const { left, top, width, height } = range.getBoundingClientRect();
    if (width > 1 && height > 1 && thing.checkVisibility({ visibilityProperty: true, opacityProperty: true })) {
      found.push({ text: node.data.trim(), thing, x: left + width / 2, y: top + height / 2 });
    }
  }
  return found;
}

/** The contrast of a text with the background of its middle. */
function contrastOf({ thing, x, y }) {
  const stack = document.elementsFromPoint(x, y);
  const at = stack.indexOf(thing);
  if (at < 0) return 21; // It is scrolled away, or clipped.
  const ground = stack.slice(at).reverse().reduce((below, it) => over(paint(it), below), [1, 1, 1]);
  const style = getComputedStyle(thing);
  const [r, g, b, a] = channels(thing.closest("svg") ? style.fill : style.color);
  return contrast(over([r, g, b, a * opacity(thing)], ground), ground);
}

/** The texts whose contrast with their background is below `least`. */
function faint(least) {
  const sheet = new CSSStyleSheet();
  sheet.replaceSync("* { pointer-events: auto !important; }");
  document.adoptedStyleSheets = [sheet];
  const found = texts().map((it) => [it.text, Math.round(contrastOf(it) * 100) / 100]);
  document.adoptedStyleSheets = [];
  return found.filter(([, much]) => much < least);
}

/** The element that Tab leads to now: its kind, its place on the screen, and whether its focus is visible. */
function focused() {
  const thing = document.activeElement;
  const { outlineStyle, outlineWidth, boxShadow } = getComputedStyle(thing);
  const { left, top, width, height } = thing.getBoundingClientRect();
  const isRinged = (outlineStyle !== "none" && parseFloat(outlineWidth) > 0) || boxShadow !== "none";
  return { what: thing.outerHTML.slice(0, 120), left, top, width, height, isRinged, isBody: thing === document.body };
}

/** The elements wider than the page, except those that scroll within their own box. */
function wide(most) {
  const isBox = (it) => /auto|scroll|hidden/.test(getComputedStyle(it).overflowX);
  const scrolls = (it) => it && (isBox(it) || scrolls(it.parentElement));
  return [...document.querySelectorAll("body *")]
    .filter((it) => it.checkVisibility() && it.getBoundingClientRect().right > most + 0.5 && !scrolls(it.parentElement))
    .map((it) => it.outerHTML.slice(0, 120));
}

/** The number of lines that the text of an element takes. */
function lines(place) {
  const text = document.createRange();
  text.selectNodeContents(document.querySelector(place));
  return new Set([...text.getClientRects()].map((it) => it.top)).size;
}

return { faint, focused, lines, wide }[arguments[0]](...[...arguments].slice(1));
