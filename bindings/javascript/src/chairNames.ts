/** The names of a register's chairs. */
import type { Handle } from "./handle.js";
import type { Names } from "./indices.js";

/** The number of the command that opened each open chair, after the first commands of a journal. */
class Openings {
  #commands = 0;
  readonly #chairs = new Map<number, number>();

  /** Goes on to those after the first commands of a register, so that each command is looked at once. */
  after(handle: Handle, commands: number): ReadonlyMap<number, number> {
    for (const { kind, chair } of handle.commands(this.#commands, commands)) {
      this.#commands++;
      if (kind === "open") this.#chairs.set(chair!, this.#commands);
      if (kind === "close") this.#chairs.delete(chair!);
    }
    return this.#chairs;
  }
}

/** Names of chairs. A name belongs to a chair from the command that opened it to the one that closes it: so they are
 * kept by the numbers of the opening commands. */
export class ChairNames {
  readonly #byOpening: Map<number, string>;
  readonly #now = new Openings();
  readonly #published = new Openings();

  constructor(byOpening: Iterable<readonly [opening: number, name: string]> = []) {
    this.#byOpening = new Map(byOpening);
  }

  /** Those of a register that has the first commands alone. */
  first(commands: number): ChairNames {
    return new ChairNames([...this.#byOpening].filter(([opening]) => opening <= commands));
  }

  /** Gives the chair that a command opened a name, or none. */
  set(opening: number, name: string | null): void {
    if (name === null) this.#byOpening.delete(opening);
    else this.#byOpening.set(opening, name);
  }

  /** The number of the command that opened a chair, if it is open. */
  opening(handle: Handle, chair: number): number | undefined {
    return this.#now.after(handle, handle.accepted).get(chair);
  }

  /** The names by chair, in the order of chairs, as the register stands. */
  now(handle: Handle): Names {
    return this.#among(this.#now, handle, handle.accepted);
  }

  /** The names by chair after the published commands. */
  published(handle: Handle): Names {
    return this.#among(this.#published, handle, handle.published);
  }

  #among(openings: Openings, handle: Handle, commands: number): Names {
    const found = new Map<number, string>();
    if (this.#byOpening.size === 0) return found;
    const open = [...openings.after(handle, commands)].sort(([one], [other]) => one - other);
    for (const [chair, opening] of open) {
      const name = this.#byOpening.get(opening);
      if (name !== undefined) found.set(chair, name);
    }
    return found;
  }
}
