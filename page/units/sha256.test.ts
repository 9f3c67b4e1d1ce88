/** Tests of SHA-256 by the examples of its standard, and by Node's own over bytes of all lengths up to three blocks. */
import assert from "node:assert/strict";
import { createHash } from "node:crypto";
import { test } from "node:test";
import { sha256 } from "../src/study/sha256";

const bytes = (text: string) => new TextEncoder().encode(text);

test("the standard's examples", () => {
  // Catches: constants, turns or an order of bytes other than the standard's.
  assert.equal(sha256(bytes("")), "e3b0c44298fc1c149afbf4c8996fb92427ae41e4649b934ca495991b7852b855");
  assert.equal(sha256(bytes("abc")), "ba7816bf8f01cfea414140de5dae2223b00361a396177a9cb410ff61f20015ad");
  const two = "abcdbcdecdefdefgefghfghighijhijkijkljklmklmnlmnomnopnopq";
  assert.equal(sha256(bytes(two)), "248d6a61d20638b8e5c026930c3e6039a33ce45964ff2167f6ecedd419db06c1");
  const million = "cdc76e5c9914fb9281a1c7e284d73e67f1809a48a497200e046d39ccc7112cd0";
  assert.equal(sha256(bytes("a".repeat(1_000_000))), million);
});

test("bytes of each length up to three blocks", () => {
  // Catches: an end that is wrong where it just fits into a block, or doesn't.
  for (let length = 0; length <= 192; length += 1) {
    const some = Uint8Array.from({ length }, (_, at) => (at * 167 + length * 31) % 256);
    assert.equal(sha256(some), createHash("sha256").update(some).digest("hex"), `${length} bytes`);
  }
});
