// A program to be bundled.
import { Register, indices, replayText } from "voting-board";

const register = new Register({ AAA: 50, BBB: 49 });
register.submit("open,1\nmove,AAA,1\n");
const { text } = replayText(register.script());
console.log(
  indices([50, 49, 1], "half").omega, String(register.indices("half").chairs[0].share), text.trim().split("\n").length,
);
