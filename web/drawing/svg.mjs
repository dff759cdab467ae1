// Pages as SVG.
import { HIGH, WIDE } from "./strokes.mjs";
import { BASELINE, LINE, NOTE, headEnds, linesOf, notePlace, offsetOf, pointsOf, rectOf } from "./places.mjs";
import { EXACT, LIGHT, colourOf, dashOf, dyeOf, isFilled, noteLines, noteRow, smooth } from "./painting.mjs";

const ENTITIES = { "&": "&amp;", "<": "&lt;", ">": "&gt;", '"': "&quot;" };
const escaped = text => text.replace(/[&<>"]/g, sign => ENTITIES[sign]).replace(/[\u0000-\u0008\u000b\u000c\u000e-\u001f\ufffe\uffff]/g, "\ufffd").replace(/[\ud800-\udbff](?![\udc00-\udfff])|(?<![\ud800-\udbff])[\udc00-\udfff]/g, "\ufffd");
const round = number => Number(number.toFixed(1));
const svgLines = (lines, x, y) => lines.map((line, i) => `<tspan x="${round(x)}" y="${round(y(i))}">${escaped(line)}</tspan>`).join("");

function svgShape(shape) {
  if (shape.kind === "note") {
    const [x, y] = notePlace(shape), lines = noteLines(shape.text);
    return `<rect x="${x}" y="${y}" width="${NOTE.wide}" height="${NOTE.high}" fill="#fff9db" stroke="${dyeOf(shape.source)}" stroke-width="4"/><text text-rendering="${EXACT}" font-size="${NOTE.size}" font-family="sans-serif" fill="#343a40">${svgLines(lines, x + 18, i => y + noteRow(lines, i))}</text>`;
  }
  const points = pointsOf(shape), colour = colourOf(shape);
  if (shape.kind === "text") return `<text text-rendering="${EXACT}" font-size="${shape.width}" font-family="sans-serif" fill="${colour}" xml:space="preserve">${svgLines(linesOf(shape), points[0][0], i => points[0][1] + shape.width * (BASELINE + i * LINE))}</text>`;
  const dash = shape.style.startsWith("d") ? ` stroke-dasharray="${dashOf(shape.width).map(round).join(" ")}"` : "", fill = isFilled(shape) ? `"${colour}" fill-opacity="${shape.style.endsWith("f") ? LIGHT : 1}"` : '"none"';
  const pen = `fill=${fill} stroke="${colour}" stroke-width="${shape.width}" stroke-linecap="round" stroke-linejoin="round"`;
  if (shape.kind === "pen") return `<path d="${svgPath(points)}" ${pen}${dash}/>`;
  if (shape.kind === "line" || shape.kind === "arrow") {
    const head = shape.kind === "arrow" ? headEnds(points, shape.width) : null;
    return `<line x1="${points[0][0]}" y1="${points[0][1]}" x2="${points[1][0]}" y2="${points[1][1]}" ${pen}${dash}/>` + (head ? `<path d="M${head[0].map(round).join(" ")}L${points[1].join(" ")}L${head[1].map(round).join(" ")}" ${pen}/>` : "");
  }
  const [x, y, wide, high] = rectOf(points);
  if (shape.kind === "rect") return `<rect x="${x}" y="${y}" width="${wide}" height="${high}" ${pen}${dash}/>`;
  return `<ellipse cx="${x + wide / 2}" cy="${y + high / 2}" rx="${wide / 2}" ry="${high / 2}" ${pen}${dash}/>`;
}
function svgPath(points) {
  let path = "";
  smooth({ moveTo: (x, y) => { path += `M${x} ${y}`; }, lineTo: (x, y) => { path += `L${round(x)} ${round(y)}`; }, quadraticCurveTo: (a, b, x, y) => { path += `Q${a} ${b} ${round(x)} ${round(y)}`; } }, points);
  return path;
}
function svgGroups(shapes) {
  return shapes.map(shape => { const [x, y] = offsetOf(shape); return `<g data-name="${shape.source}.${shape.number}"${x || y ? ` transform="translate(${x} ${y})"` : ""}>${svgShape(shape)}</g>`; }).join("\n");
}
export function svgOf(shapes) {
  return `<svg xmlns="http://www.w3.org/2000/svg" viewBox="0 0 ${WIDE} ${HIGH}" width="${WIDE / 2}" height="${HIGH / 2}">\n<rect width="100%" height="100%" fill="#fff"/>\n${svgGroups(shapes)}\n</svg>\n`;
}
// All pages below each other, each under its title.
export const SHEET = { head: 170, gap: 90, size: 96 };
export const sheetPlaces = pages => pages.map((page, i) => ({ page, y: i * (SHEET.head + HIGH + SHEET.gap) + SHEET.head }));
export const sheetHigh = pages => pages.length * (SHEET.head + HIGH + SHEET.gap);
export function svgOfAll(pages, titleOf) {
  const groups = sheetPlaces(pages).map(({ page, y }) => `<text x="40" y="${y - 50}" text-rendering="${EXACT}" font-size="${SHEET.size}" font-family="sans-serif" fill="#1e1e24">${escaped(titleOf(page))}</text>\n<svg x="0" y="${y}" width="${WIDE}" height="${HIGH}"><rect width="${WIDE}" height="${HIGH}" fill="#fff"/>\n${svgGroups(page.shapes())}\n</svg>`);
  return `<svg xmlns="http://www.w3.org/2000/svg" viewBox="0 0 ${WIDE} ${sheetHigh(pages)}" width="${WIDE / 2}" height="${sheetHigh(pages) / 2}">\n<rect width="100%" height="100%" fill="#eceef3"/>\n${groups.join("\n")}\n</svg>\n`;
}

