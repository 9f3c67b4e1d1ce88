/** What the page uses of d3: Debian has no types of it. */
declare module "d3-dsv" {
  export function dsvFormat(delimiter: string): { parseRows(text: string): string[][] };
}
declare module "d3-scale" {
  export interface Linear {
    (value: number): number;
    domain(): [number, number];
    domain(ends: [number, number]): Linear;
    range(ends: [number, number]): Linear;
    nice(count?: number): Linear;
    ticks(count?: number): number[];
    tickFormat(count?: number): (value: number) => string;
  }
  export function scaleLinear(): Linear;
}
declare module "d3-axis" {
  import type { Linear } from "d3-scale";
  import type { Selection } from "d3-selection";
  export interface Axis {
    (selection: Selection): void;
    ticks(count: number): Axis;
    tickFormat(format: (value: number) => string): Axis;
    tickSizeInner(size: number): Axis;
    tickSizeOuter(size: number): Axis;
  }
  export function axisBottom(scale: Linear): Axis;
  export function axisTop(scale: Linear): Axis;
  export function axisLeft(scale: Linear): Axis;
  export function axisRight(scale: Linear): Axis;
}
declare module "d3-shape" {
  export interface SymbolType {
    readonly draw: unknown;
  }
  export const symbolCircle: SymbolType;
  export const symbolSquare: SymbolType;
  export const symbolTriangle: SymbolType;
  export const symbolDiamond: SymbolType;
  export function symbol(): {
    type(kind: SymbolType): { size(area: number): () => string };
  };
}
declare module "d3-selection" {
  type Value = string | number | boolean | null;
  export interface Selection {
    append(name: string): Selection;
    attr(name: string, value: Value): Selection;
    text(value: string): Selection;
    call(action: (selection: Selection) => void): Selection;
    selectAll(selector: string): Selection;
    select(selector: string): Selection;
    on(name: string, listener: (() => void) | null): Selection;
    remove(): Selection;
    node(): Element | null;
  }
  export function select(node: Element): Selection;
}
