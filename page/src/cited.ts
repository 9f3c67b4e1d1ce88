/** The words and Articles of the majorities, and the sources, of docs/DEFINITIONS.md. Made by tools/made from the sources: do not edit. */
import type { Majority } from "../../bindings/javascript/src/names";

interface MajorityWords {
  /** How a sentence begins. */
  readonly at: string;
  readonly label: string;
  readonly rule: string;
  readonly article: string;
  readonly about: string;
}

export const MAJORITY: Readonly<Record<Majority, MajorityWords>> = {
  half: {
    at: "At a simple majority",
    label: "simple majority",
    rule: "more than half of the votes cast, if all open chairs vote",
    article: "Article XII, Section 5(c)",
    about: "the rule, unless otherwise specifically provided",
  },
  "70": {
    at: "At 70 per cent",
    label: "70 per cent",
    rule: "at least one vote, and at least 70 per cent of the total",
    article: "Article XXVI, Section 2(b)",
    about: "an example of a decision that asks for it",
  },
  "85": {
    at: "At 85 per cent",
    label: "85 per cent",
    rule: "at least one vote, and at least 85 per cent of the total",
    article: "Article III, Section 2(c)",
    about: "an example of a decision that asks for it. Changes of quotas are decided by the Board of Governors, so the figures say what blocks of votes would be worth under this majority",
  },
  quorum: {
    at: "For the quorum",
    label: "quorum",
    rule: "more than half of the open chairs, with at least half of the total",
    article: "Article XII, Section 3(h)",
    about: "the quorum of a meeting",
  },
};

export const SOURCES: readonly string[] = [
  "Banzhaf, John F., III (1965). Weighted voting doesn't work: a mathematical analysis. Rutgers Law Review 19(2), 317-343.",
  "Coleman, James S. (1971). Control of collectivities and the power of a collectivity to act. In Bernhardt Lieberman (ed.), Social Choice. Gordon and Breach, New York, 269-300.",
  "Felsenthal, Dan S., and Moshé Machover (1998). The Measurement of Voting Power: Theory and Practice, Problems and Paradoxes. Edward Elgar, Cheltenham.",
  "Horowitz, Ellis, and Sartaj Sahni (1974). Computing partitions with applications to the knapsack problem. Journal of the Association for Computing Machinery 21(2), 277-292.",
  "International Monetary Fund. Articles of Agreement, adopted at the United Nations Monetary and Financial Conference, Bretton Woods, New Hampshire, 22 July 1944; in force since 27 December 1945; as amended. Article II, Section 2; Article III, Section 2(c); Article XII, Sections 3(h), 3(i), 5(a) and 5(c); Article XXVI, Sections 1 and 2(b); Schedule L.",
  "Penrose, Lionel S. (1946). The elementary statistics of majority voting. Journal of the Royal Statistical Society 109(1), 53-57.",
];

/** How the measures are named in a sentence. */
export const MEASURE_NAMES = {
  share: "share of power",
  banzhaf: "Banzhaf measure",
  prevent: "power to prevent action",
  initiate: "power to initiate action",
  swings: "number of swings",
  ratio: "ratio of power to votes",
} as const;

/** The sentences on who has most and who gains most; what they speak of stands in braces. */
export const FINDINGS = {
  none_wins: "{at} no coalition wins: the open chairs cast {cast} of {total} votes.",
  none_before: "{at} no coalition wins in the base, so nothing can be compared.",
  no_veto: "{at}, no chair has a veto: at least {carry} chairs are needed to carry, and {block} to block.",
  no_veto_quorum: "{at}, no chair has a veto: at least {carry} chairs are needed to meet it, {block} to stop it.",
  vetoes: "{at}, {vetoes}.",
  alone_one: "chair {chairs} decides alone: everything passes with it, and nothing without it",
  has_one: "chair {chairs} has a veto{margin}: {nothing} without it",
  has_several: "chairs {chairs} have a veto: {nothing} without each of them",
  gets_one: "chair {chairs} gains a veto{margin}: {nothing} without it",
  gets_several: "chairs {chairs} gain a veto: {nothing} without each of them",
  drops_one: "chair {chairs} loses its veto{margin}",
  drops_several: "chairs {chairs} lose their vetoes",
  keeps_one: "chair {chairs} keeps its veto{margin}",
  keeps_several: "chairs {chairs} keep their vetoes",
  passes: "nothing passes",
  meets: "there is no quorum",
  more: ", with {votes} more than it needs",
  fewer: ", with {votes} fewer than it needs",
  just: ", with just the votes that it needs",
  spare: "{chair} ({votes} to spare)",
  powerless_one: " Chair {chairs} has no power: no outcome depends on it.",
  powerless_several: " Chairs {chairs} have no power: no outcome depends on them.",
  equal: " Chair {more} with {votes} votes has no more power than chair {less} with {fewer}.",
  gains: "{at}, in {measure}: {gain}; {loss}.{opened}",
  gains_then: " In {measure}: {gain}; {loss}.{opened}",
  gain_one: "chair {chairs} gains most, {change}",
  gain_several: "chairs {chairs} gain most, {change} each",
  gain_none: "no chair gains",
  loss_one: "chair {chairs} loses most, {change}",
  loss_several: "chairs {chairs} lose most, {change} each",
  loss_none: "no chair loses",
  new: " Chair {chair} is new: {value}.",
  closed: " Chair {chair} is closed; in the base it had {value}.",
  tiny: "less than {change}",
  points: "{change} percentage points",
} as const;

/** The operations of scenarios: what each field is, in the order of board-study's text. */
export const OPERATIONS = {
  merge: { chair: "chair", to: "chair" },
  dissolve: { chair: "chair", to: "seat" },
  split: { codes: "codes", to: "opened" },
  scale: { of: "whose", percent: "change" },
  share: { codes: "codes", percent: "share", others: "others" },
  move: { codes: "codes", to: "seat" },
} as const;
export const NO_PROPORTIONS = "these members have no votes, so no proportions to keep";
