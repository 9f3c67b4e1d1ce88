/** The state of the page: a study with undo, its view, what is open in the page, and the last counts. */
import type { Counted, Counter, Curve } from "../engine/count";
import { FIRST_FIGURE, type FigureChosen } from "../exports/figureSize";
import { History } from "../study/history";
import { Cancelled } from "../engine/pausing";
import { Results, type Sweep } from "../engine/results";
import { firstSweep } from "../engine/firstSweep";
import { stepsOf } from "../engine/steps";
import type { Study, SweepAsked, View } from "../study/study";
import { NO_TICKS, type Ticks } from "../engine/ticks";

export type State = "counting" | "ready" | "fault";

/** A study and its count. */
export interface Shown {
  readonly study: Study;
  readonly counted: Counted;
}

/** Work that a person waits for. */
export interface Waiting {
  readonly words: string;
  /** How much of it is done, from 0 to 1. */
  readonly done: number;
  cancel(): void;
}

/** A member that is carried by keyboard, and the place of the row that it aims at. */
export interface Carried {
  readonly code: string;
  readonly place: string;
}

/** What is open, chosen and typed in the page, beside the study and its view. */
export interface Open {
  /** The rows of chairs that are open, and the text by which members are filtered. */
  readonly cards: Set<string>;
  filter: string;
  carried: Carried | null;
  /** The fields of a sweep that isn't asked for yet. */
  sweep: SweepAsked | null;
  /** The chairs that are ticked as a coalition. */
  ticks: Ticks;
  /** Whether the table of a chart is open, and whether the page is being printed. */
  isTableOpen: boolean;
  isPrinting: boolean;
  /** Whether the card for a first visit was closed. */
  isWelcomed: boolean;
  /** What was chosen for a figure last. */
  readonly figure: FigureChosen;
}

export class App {
  readonly history: History<Study>;
  readonly counter: Counter;
  readonly results = new Results();
  readonly open: Open = {
    cards: new Set(), filter: "", carried: null, sweep: null, ticks: NO_TICKS, isTableOpen: false, isPrinting: false,
    isWelcomed: false, figure: { ...FIRST_FIGURE },
  };
  /** The values that each part of the page was painted with. */
  readonly #painted = new Map<string, readonly unknown[]>();
  /** Whether the module's bytes have the hash that the build recorded. */
  readonly isOwnModule: boolean;
  view: View;
  /** The study as it was opened or saved last. */
  savedStudy: Study;
  shown: Shown | null = null;
  /** The script of the example, or empty in a page that holds a study. */
  example = "";
  state: State = "counting";
  fault: Error | null = null;
  /** A sentence on something that failed beside the count of the study; empty if nothing did. */
  trouble = "";
  waiting: Waiting | null = null;
  #run = 0;
  #counting: Promise<void> = Promise.resolve();
  #rest: Promise<void> = Promise.resolve();
  readonly #paint: (app: App) => void;

  constructor(study: Study, view: View, counter: Counter, isOwnModule: boolean, paint: (app: App) => void) {
    this.history = new History(study);
    this.counter = counter;
    this.isOwnModule = isOwnModule;
    this.view = view;
    this.savedStudy = study;
    this.#paint = paint;
  }

  get study(): Study {
    return this.history.state;
  }

  /** Whether the study's table is the example. */
  get isExample(): boolean {
    return this.study.base.script === this.example;
  }

  /** Sets another study. Studies of one gesture are one step of undo. */
  take(study: Study, gesture = ""): void {
    this.history.take(study, gesture);
    void this.count();
  }

  /** Opens a study: it isn't changed yet. */
  openStudy(study: Study, view: View = this.view): void {
    this.open.cards.clear();
    this.open.sweep = null;
    this.open.isWelcomed = true;
    this.view = view;
    this.savedStudy = study;
    this.take(study);
  }

  /** Keeps in mind that a study was saved. */
  keepSaved(study: Study): void {
    this.savedStudy = study;
    this.repaint();
  }

  /** Shows a sentence on something that failed and that no other part of the page speaks of. */
  report(why: unknown): void {
    const words = `Something failed: ${why instanceof Error ? why.message : String(why)}`;
    if (this.trouble === words) return;
    this.trouble = words;
    this.repaint();
  }

  /** Whether the study differs from the one that was opened or saved last. */
  get isUnsaved(): boolean {
    return this.study !== this.savedStudy;
  }

  /** Changes the view of the study. Readings of other majorities, and a curve that is shown, are counted first. */
  look(part: Partial<View>): void {
    this.view = { ...this.view, ...part };
    if (part.majorities !== undefined || part.columns !== undefined || part.tab === "curve") void this.count();
    if (part.majorities === undefined) this.repaint();
  }

  undo(): void {
    this.history.undo();
    void this.count();
  }

  redo(): void {
    this.history.redo();
    void this.count();
  }

  repaint(): void {
    this.#paint(this);
  }

  /** Paints a part of the page if one of the values that it shows is another one than last time. */
  part(name: string, values: readonly unknown[], paint: () => void): void {
    const before = this.#painted.get(name);
    if (before?.length === values.length && before.every((it, at) => it === values[at])) return;
    this.#painted.set(name, values);
    paint();
  }

  /** The sweep that is shown: the one that the study asks for, else one of the chair in focus; null if none is. */
  asked({ study, counted }: Shown): SweepAsked | null {
    return study.sweep ?? (this.view.tab === "curve" ? firstSweep(counted, this.open.cards) : null);
  }

  /** That sweep, if it was counted on the board shown. */
  get sweep(): Sweep | undefined {
    const { shown } = this;
    const asked = shown && this.asked(shown);
    return shown && asked ? this.results.sweep(shown.counted, shown.study.changes, asked) : undefined;
  }

  /** The curve of that sweep, or null. */
  get curve(): Curve | null {
    const { sweep } = this;
    return sweep && !("problem" in sweep) ? sweep : null;
  }

  /** The curve of the sweep that the study has, or null. */
  get keptCurve(): Curve | null {
    return this.shown?.study.sweep ? this.curve : null;
  }

  /** Counts all that the study has, the sweep too even if it isn't shown, and returns the study with its count. */
  async whole(): Promise<Shown> {
    await this.#rest;
    const { shown } = this;
    if (!shown) throw this.fault ?? new Error("there is no count yet");
    await this.#countSweep(this.#run, shown);
    return shown;
  }

  /** Ends when the study is counted. */
  get counting(): Promise<void> {
    return this.#counting;
  }

  /** Counts the study, then its scenarios, steps and sweep. A run is dropped if another one overtakes it. */
  count(): Promise<void> {
    this.waiting?.cancel();
    const run = (this.#run += 1);
    this.#counting = this.#count(run);
    this.trouble = "";
    this.#rest = this.#counting.then(() => this.#countRest(run));
    this.#rest.catch((why: unknown) => this.report(why));
    return this.#rest;
  }

  async #count(run: number): Promise<void> {
    const [study, { majorities }] = [this.study, this.view];
    performance.mark("edit");
    this.#set("counting");
    try {
      const counted = await this.counter.count(study.base, study.changes, majorities);
      if (run !== this.#run) return;
      this.shown = { study, counted };
      // The last step is the whole list.
      if (this.view.columns === "steps") this.results.keepStep(study.changes, counted);
      this.fault = null;
      this.#set("ready");
    } catch (why) {
      if (run !== this.#run) return;
      this.fault = why instanceof Error ? why : new Error(String(why));
      this.#set("fault");
    }
    this.repaint();
    requestAnimationFrame(() => {
      const { duration } = performance.measure("edit to numbers", "edit");
      document.documentElement.dataset["milliseconds"] = duration.toFixed(1);
    });
  }

  async #countRest(run: number): Promise<void> {
    const { shown, fault } = this;
    if (!shown || fault || run !== this.#run) return;
    const isNew = [await this.#countScenarios(shown), await this.#countSteps(run, shown)];
    if (isNew.includes(true) && run === this.#run) this.repaint();
    if (this.view.tab === "curve") await this.#countSweep(run, shown);
  }

  /** Counts the scenarios that aren't counted yet, and says whether there were any. */
  async #countScenarios({ study: { base, scenarios }, counted: { majorities } }: Shown): Promise<boolean> {
    const missing = scenarios.filter((it) => !this.results.scenario(base, it, majorities));
    for (const it of missing) {
      this.results.keepScenario(it, await this.counter.count(base, it.changes, majorities));
    }
    return missing.length > 0;
  }

  /** Counts the steps that aren't counted yet, if they are shown, and says whether there were any. */
  async #countSteps(run: number, { study, counted }: Shown): Promise<boolean> {
    if (this.view.columns !== "steps") return false;
    const { majorities } = counted;
    const missing = stepsOf(study).filter((it) => !this.results.step(study.base, it, majorities));
    for (const it of missing) {
      if (run !== this.#run) return false;
      this.results.keepStep(it, await this.counter.count(study.base, it, majorities));
    }
    return missing.length > 0;
  }

  async #countSweep(run: number, shown: Shown): Promise<void> {
    const { study: { changes }, counted } = shown;
    const asked = this.asked(shown);
    if (!asked || this.results.sweep(counted, changes, asked) || run !== this.#run) return;
    const keep = (value: Sweep) => this.results.keepSweep(counted, changes, asked, value);
    try {
      const words = "The sweep is being counted.";
      keep(await this.wait(words, (report) => this.counter.sweep(counted, changes, asked, report)));
    } catch (why) {
      if (run !== this.#run && why instanceof Cancelled) return;
      keep({ problem: why instanceof Error ? why.message : String(why) });
    }
    if (run === this.#run) this.repaint();
  }

  /** Carries out a task that a person waits for, with its progress on the page, until it ends or is cancelled. */
  async wait<Answer>(
    words: string,
    begin: (report: (done: number) => void) => Promise<{ answer: Promise<Answer>; cancel(): void }>,
  ): Promise<Answer> {
    let [waiting, isCancelled]: [Waiting | null, boolean] = [null, false];
    const show = (done: number) => {
      if (waiting && this.waiting !== waiting) return;
      waiting = this.waiting = { words, done, cancel };
      this.repaintWaiting();
    };
    const task = await begin(show);
    const cancel = () => {
      isCancelled = true;
      task.cancel();
    };
    show(0);
    try {
      const answer = await task.answer;
      if (isCancelled) throw new Cancelled();
      return answer;
    } finally {
      if (this.waiting === waiting) this.waiting = null;
      this.repaintWaiting();
    }
  }

  /** Paints the progress of what is waited for; the page sets it at its beginning. */
  repaintWaiting: () => void = () => {};

  #set(state: State): void {
    this.state = state;
    document.documentElement.dataset["state"] = state;
  }
}
