/** The text of a replay, as `board replay` prints it. */
import { single } from "./load.js";
import { WORD, wordIn } from "./memory.js";
import { OUT_OF_MEMORY, Refused, WRITE_FAULT, faultOf, sentenceOf, type Fault } from "./refused.js";
import { inputOf, journalOf, options, readersOf, type Whole } from "./values.js";

/** Options of a replay. */
export interface ReplayOptions {
  /** The number of readers, from 1 to 4; 1 without this option. */
  readonly readers?: Whole;
  /** The most commands that are accepted, from 1 to 1,000,000, which it is without this option. */
  readonly journal?: Whole;
}

/** Bytes for the text of a replay at first, beyond four times those of its input. */
const TEXT = 65536;

/** The text of a replay in bytes of ASCII, and the fault that ended it, or null. */
export interface ReplayedBytes {
  readonly bytes: Uint8Array;
  readonly fault: Fault | null;
}

/** The text of a replay, and the fault that ended it, or null. */
export interface ReplayedText {
  readonly text: string;
  readonly fault: Fault | null;
}

/** The text of a replay as `board replay` prints it, in bytes. */
export function replayBytes(input: string | Uint8Array, given: ReplayOptions = {}): ReplayedBytes {
  const { readers, journal } = options(given, "readers", "journal");
  const [text, limits] = [inputOf(input), [readersOf(readers), journalOf(journal)]];
  const instance = single();
  const [from, numbers] = [instance.put(text), instance.reserve(2 * WORD)];
  const passed = [BigInt(from), BigInt(text.length), ...limits];
  const written = [BigInt(numbers), BigInt(numbers + WORD)];
  for (let room = TEXT + 4 * text.length; ; ) {
    const out = instance.reserve(room);
    const number = instance.call("board_replay", ...passed, BigInt(out), BigInt(room), ...written);
    if (number !== WRITE_FAULT) {
      const bytes = instance.bytes(out, wordIn(instance.view, numbers)).slice();
      return { bytes, fault: faultOf(number, instance.view.getUint32(numbers + WORD, true)) };
    }
    instance.release(out);
    // The text is longer than the room.
    instance.call("board_replay_length", ...passed, ...written);
    const length = wordIn(instance.view, numbers);
    if (length <= room) throw new Refused(OUT_OF_MEMORY);
    room = length;
  }
}

/**
 * The text of a replay as `board replay` prints it. A text that is longer than a string can be is `Refused` as
 * OutOfMemory (10); `replayBytes` gives it in bytes.
 */
export function replayText(input: string | Uint8Array, given: ReplayOptions = {}): ReplayedText {
  const { bytes, fault } = replayBytes(input, given);
  try {
    return { text: new TextDecoder().decode(bytes), fault };
  } catch {
    throw new Refused(OUT_OF_MEMORY, `${sentenceOf(OUT_OF_MEMORY)}: the text has ${bytes.length} bytes`);
  }
}
