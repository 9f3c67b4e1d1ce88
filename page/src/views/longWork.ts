/** Long work of a dialog: a new piece of it cancels the one before, and so does the end of the dialog. */
import type { App } from "./app";
import type { Report, Task } from "../engine/pool";

export class LongWork {
  readonly #app: App;
  #number = 0;
  #task: Task<unknown> | null = null;

  constructor(app: App) {
    this.#app = app;
  }

  /** Does a piece, and shows its answer, or in a place why there is none. */
  async run<Answer>(
    words: string,
    begin: (report: Report) => Promise<Task<Answer>>,
    show: (answer: Answer, milliseconds: number) => void,
    said: HTMLElement,
  ): Promise<void> {
    this.end();
    const [own, begun] = [this.#number, performance.now()];
    said.textContent = "Counting…";
    const started = async (report: Report) => {
      const task = await begin(report);
      if (own === this.#number) this.#task = task;
      else task.cancel();
      return task;
    };
    try {
      const answer = await this.#app.wait(words, started);
      if (own === this.#number) show(answer, performance.now() - begun);
    } catch (why) {
      if (own === this.#number) said.textContent = `There is no answer: ${why instanceof Error ? why.message : why}.`;
    }
  }

  end(): void {
    this.#number += 1;
    this.#task?.cancel();
    this.#task = null;
  }
}
