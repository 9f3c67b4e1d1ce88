// A page that imports the package as it is, from a server that doesn't know the type of board.wasm; and its worker.
import { Refused, Register, indices, load, replayFile } from "/node_modules/voting-board/dist/esm/index.js";

const shares = () => indices([50, 49, 1], "half").chairs.map(({ share }) => String(share)).join(" ");
const isPage = typeof document === "object";

async function checked() {
  const found = [shares()];
  const address = "/node_modules/voting-board/dist/board.wasm";
  for (const source of [undefined, address, fetch(address)]) {
    await load(source);
    found.push(shares());
  }
  found.push(new Register({ AAA: 5 }).members.AAA.votes);
  const why = await load("/node_modules/voting-board/none.wasm").catch((error) => error);
  found.push(why.message.replace(/http:\S*\//, ""));
  try {
    replayFile("script.csv");
  } catch (error) {
    found.push(error.message);
  }
  found.push(structuredClone(new Refused(32)).cause?.code);
  return found;
}

if (isPage) {
  const worker = new Worker("/loaded.mjs", { type: "module" });
  const answer = new Promise((resolve) => worker.addEventListener("message", ({ data }) => resolve(data)));
  globalThis.ended = Promise.all([checked(), answer]);
} else {
  checked().then((found) => postMessage(found));
}
