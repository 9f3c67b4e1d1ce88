/** Documents of HTML in which all elements but `<br>` have an end, with what the reader asks of a browser's. */

const NAMED = { lt: "<", gt: ">", amp: "&", nbsp: "\u00a0" };
const plain = (text) => text.replace(/&(lt|gt|amp|nbsp);|&#([0-9]+);/g, (_, name, code) =>
  (name ? NAMED[name] : String.fromCodePoint(Number(code))));

class Node {
  childNodes = [];

  constructor(nodeType, nodeName, attributes, parent, text = "") {
    Object.assign(this, { nodeType, nodeName, attributes, parent, text });
    parent?.childNodes.push(this);
  }

  get textContent() {
    return this.text + this.childNodes.map((it) => it.textContent).join("");
  }

  get children() {
    return this.childNodes.filter((it) => it.nodeType === 1);
  }

  getAttribute(name) {
    return this.attributes.get(name) ?? null;
  }

  hasAttribute(name) {
    return this.attributes.has(name);
  }

  matches(selector) {
    return selector.split(", ").some((it) =>
      it.startsWith("[") ? this.hasAttribute(it.slice(1, -1)) : this.nodeName === it.toUpperCase());
  }

  closest(selector) {
    return this.matches(selector) ? this : this.parent?.closest(selector) ?? null;
  }

  querySelectorAll(selector) {
    return this.children.flatMap((it) => [...(it.matches(selector) ? [it] : []), ...it.querySelectorAll(selector)]);
  }

  querySelector(selector) {
    return this.querySelectorAll(selector)[0] ?? null;
  }
}

/** The document of a text. */
export function parsed(html) {
  const root = new Node(1, "HTML", new Map(), null);
  let at = root;
  for (const [, end, name, words = "", text] of html.matchAll(/<(\/?)([a-z]+)([^<>]*)>|([^<]+)/g)) {
    const attributes = [...words.matchAll(/([a-z-]+)(?:=["']?([^"']*))?/g)].map(([, key, value = ""]) => [key, value]);
    if (text !== undefined) new Node(3, "#text", new Map(), at, plain(text));
    else if (end && at.nodeName !== name.toUpperCase()) throw new Error(`</${name}> ends ${at.nodeName}`);
    else if (end) at = at.parent;
    else {
      const made = new Node(1, name.toUpperCase(), new Map(attributes), at);
      if (name !== "br") at = made;
    }
  }
  return root;
}
