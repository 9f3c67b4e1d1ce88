/** Pictures of figures as PNG, with their resolution, title and source. */
import { h } from "../views/dom";
import { textFile } from "./exportFile";
import { svgText, type DrawnFigure } from "./exportFigure";
import { pointsOf } from "./figureSize";

/** The bytes before the place of further chunks: the signature and the header. */
const HEAD = 33;

/** The check of a chunk, by the polynomial of PNG. */
function crc(bytes: Uint8Array): number {
  let sum = -1;
  for (const byte of bytes) {
    sum ^= byte;
    for (let bit = 0; bit < 8; bit += 1) sum = sum & 1 ? (sum >>> 1) ^ 0xedb88320 : sum >>> 1;
  }
  return ~sum;
}

function fourBytes(number: number): Uint8Array {
  const bytes = new Uint8Array(4);
  new DataView(bytes.buffer).setInt32(0, number);
  return bytes;
}

function joined(...parts: readonly Uint8Array[]): Uint8Array {
  const all = new Uint8Array(parts.reduce((sum, it) => sum + it.length, 0));
  let at = 0;
  for (const part of parts) {
    all.set(part, at);
    at += part.length;
  }
  return all;
}

function chunk(kind: string, data: Uint8Array): Uint8Array {
  const checked = joined(new TextEncoder().encode(kind), data);
  return joined(fourBytes(data.length), checked, fourBytes(crc(checked)));
}

/** The bytes of a picture with its resolution in points an inch, and texts by their names. */
export function withChunks(
  png: Uint8Array,
  resolution: number,
  texts: Readonly<Record<string, string>>,
): Uint8Array {
  const perMetre = fourBytes(Math.round(resolution / 0.0254));
  const size = chunk("pHYs", joined(perMetre, perMetre, new Uint8Array([1])));
  const own = Object.entries(texts).map(([name, text]) =>
    chunk("iTXt", new TextEncoder().encode(`${name}\0\0\0\0\0${text}`)));
  return joined(png.subarray(0, HEAD), size, ...own, png.subarray(HEAD));
}

/** A figure with a width in points in place of millimetres, as the picture has it. */
function scaled({ svg }: DrawnFigure, width: number, height: number): SVGSVGElement {
  const copy = svg.cloneNode(true) as SVGSVGElement;
  copy.setAttribute("width", String(width));
  copy.setAttribute("height", String(height));
  // Both were rounded to whole points: else a part of a point at the edge would stay without colour.
  copy.setAttribute("preserveAspectRatio", "none");
  return copy;
}

/** A picture of an image, or null if the browser makes none of that size: some leave it empty. */
async function painted(image: HTMLImageElement, width: number, height: number): Promise<Blob | null> {
  const canvas = h("canvas", { width, height });
  const pen = canvas.getContext("2d");
  pen?.drawImage(image, 0, 0, width, height);
  const isPainted = pen && pen.getImageData(width >> 1, height >> 1, 1, 1).data[3] === 255;
  return isPainted ? new Promise((take) => canvas.toBlob(take, "image/png")) : null;
}

/** The picture of a figure at a resolution. */
export async function pngOf(figure: DrawnFigure, resolution: number): Promise<Blob> {
  const [width, height] = [pointsOf(figure.width, resolution), pointsOf(figure.height, resolution)];
  const svg = svgText({ ...figure, svg: scaled(figure, width, height) });
  const url = URL.createObjectURL(textFile(svg, "image/svg+xml"));
  try {
    const image = new Image();
    image.src = url;
    await image.decode();
    const blob = await painted(image, width, height);
    if (!blob) throw new Error(`This browser makes no picture of ${width} by ${height} points: ask for fewer dpi.`);
    const texts = { Title: figure.title, Source: figure.lines.join("\n") };
    const bytes = withChunks(new Uint8Array(await blob.arrayBuffer()), resolution, texts);
    return new Blob([bytes], { type: "image/png" });
  } finally {
    URL.revokeObjectURL(url);
  }
}
