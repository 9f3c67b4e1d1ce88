/** States with undo and redo. */

export class History<State> {
  #past: State[] = [];
  #future: State[] = [];
  #gesture = "";

  constructor(private now: State) {}

  get state(): State {
    return this.now;
  }

  /** The state before the gesture that goes on; without one, the present state. */
  get resting(): State {
    return this.#gesture ? this.#past[this.#past.length - 1] ?? this.now : this.now;
  }

  /** Adds a state. States of one gesture, such as a slider that moves, are one step of undo. */
  take(state: State, gesture = ""): void {
    if (gesture === "" || gesture !== this.#gesture) this.#past.push(this.now);
    this.#gesture = gesture;
    this.#future = [];
    this.now = state;
  }

  /** Ends a gesture: the next state is a separate step. */
  rest(): void {
    this.#gesture = "";
  }

  get canUndo(): boolean {
    return this.#past.length > 0;
  }

  get canRedo(): boolean {
    return this.#future.length > 0;
  }

  undo(): void {
    this.#step(this.#past, this.#future);
  }

  redo(): void {
    this.#step(this.#future, this.#past);
  }

  #step(from: State[], to: State[]): void {
    const state = from.pop();
    if (state === undefined) return;
    to.push(this.now);
    this.#gesture = "";
    this.now = state;
  }
}
