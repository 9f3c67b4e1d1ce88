/** Paints the page: each part of it if one of the values that it shows is another one. */
import type { App } from "./app";
import { paintBoard } from "./board";
import { paintChairs } from "./chairs";
import { paintChanges } from "./changes";
import { paintFigures } from "./figures";
import { isSourceOpen, paintFoot } from "./foot";
import { paintScenarios } from "./scenarios";
import { hideTip } from "./tip";
import { paintTop } from "./top";

export function paintPage(app: App): void {
  const { shown, study, view, history, results, open } = app;
  const { majorities, measure, digits } = view;
  const size = [innerWidth, open.isPrinting];
  app.part("tip", [shown, view], hideTip);
  const told = [app.fault, app.trouble, app.isUnsaved, open.isWelcomed, history.canUndo, history.canRedo];
  app.part("top", [shown, study, ...told], () => paintTop(app));
  app.part("chairs", [shown, view, results.version, ...size], () => paintChairs(app));
  app.part("changes", [shown, study], () => paintChanges(app));
  app.part("board", [shown, digits, majorities], () => paintBoard(app));
  paintFigures(app);
  app.part("scenarios", [shown, study, results.version, measure, digits, majorities], () => paintScenarios(app));
  const source = isSourceOpen() ? shown : null;
  app.part("foot", [source, study.base, measure, majorities], () => paintFoot(app));
}
