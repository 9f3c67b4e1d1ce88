// The types where the package is required.
import board = require("voting-board");

const register: board.Register = new board.Register([["AAA", 50]]);
const omega: number = board.indices([50, 49, 1], "half").omega;
const all: Record<board.Majority, board.Indices> = register.indicesOfAll();
export const found = [omega, all.half, new board.Fraction(1, 2) < new board.Fraction(2, 3)];
