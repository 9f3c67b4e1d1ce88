// All tests that need nothing of Node but its runner: a bundle of them is run in a browser.
import { ended } from "node:test";
import "../indices.test.mjs";
import "../register.test.mjs";
import "../replay.test.mjs";
import "../values.test.mjs";

globalThis.ended = ended();
