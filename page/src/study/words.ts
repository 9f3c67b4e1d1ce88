/** The words of measures; names, limits and reasons are the package's, the words of majorities those of DEFINITIONS. */
import { CHAIRS as MOST, MAJORITIES, REFUSALS, type Majority } from "../../../bindings/javascript/src/names";

export { MAJORITIES, type Majority };
export { MAJORITY } from "../cited";

export const MEASURES = ["share", "banzhaf", "prevent", "initiate", "swings", "ratio"] as const;
export type Measure = typeof MEASURES[number];

interface MeasureWords {
  readonly label: string;
  /** The name that its source gives it, where that isn't the label. */
  readonly name?: string;
  readonly definition: string;
  readonly source: string;
  /** Where its numbers come from: its column in the lines of `board replay`, or how it is made here. */
  readonly from: string;
}

export const MEASURE: Readonly<Record<Measure, MeasureWords>> = {
  share: {
    label: "Share of power",
    name: "normalised Banzhaf index",
    definition: "the chair's swings over the swings of all chairs, in per cent",
    source: "Banzhaf 1965",
    from: "counted: SHARE",
  },
  banzhaf: {
    label: "Banzhaf measure",
    definition: "the chair's swings over the number of sets of other chairs, 2^(N-1) for N open chairs",
    source: "Banzhaf 1965; Felsenthal and Machover 1998",
    from: "counted: BANZHAF",
  },
  prevent: {
    label: "Power to prevent action",
    definition: "the chair's swings over the number of winning coalitions; 1 where the chair has a veto",
    source: "Coleman 1971",
    from: "counted: PREVENT",
  },
  initiate: {
    label: "Power to initiate action",
    definition: "the chair's swings over the number of losing coalitions; 1 where the chair alone can carry everything",
    source: "Coleman 1971",
    from: "counted: INITIATE",
  },
  swings: {
    label: "Swings",
    definition: "the sets of other open chairs that lose, and win once this chair is added",
    source: "Penrose 1946; Banzhaf 1965",
    from: "counted: SWINGS",
  },
  ratio: {
    label: "Power over votes",
    definition: "the chair's share of power over its share of the votes cast; above 1 it has more power than votes",
    source: "both shares as above",
    from: "made here: the share of power, SHARE, over the share of the votes cast",
  },
};

/** The label of a measure, with its other name if it has one. */
export function measureTitle(measure: Measure): string {
  const { label, name } = MEASURE[measure];
  return name ? `${label} (${name})` : label;
}

/** The reason of a refusal or a fault, by its name in docs/FORMATS.md. */
export function reasonOf(name: string): string {
  return REFUSALS.find(([it]) => it === name)?.[1] ?? name;
}

export {
  CHAIRS as MOST_CHAIRS, INPUT_BYTES, MEMBERS as MOST_MEMBERS, MEMBER_VOTES as MOST_VOTES,
} from "../../../bindings/javascript/src/names";

/** All numbers that a chair may have. */
export const CHAIRS: readonly number[] = Array.from({ length: MOST }, (_, at) => at + 1);
