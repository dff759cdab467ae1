// Tools.
const ICONS = {
  choose: ["Select (V)", "M6 3l12 9-5.2 1.2L16 20l-2.6 1.1-3-6.7L6 18z"], pen: ["Pen (P)", "M4 20l1-4L16 5l3 3L8 19z M14 7l3 3"], line: ["Line (L)", "M5 19L19 5"], arrow: ["Arrow (A)", "M5 19L19 5 M11 5h8v8"],
  rect: ["Rectangle (R)", "M4 6h16v12H4z"], oval: ["Ellipse (O)", "M3 12a9 6.5 0 1 0 18 0a9 6.5 0 1 0-18 0"],
  text: ["Text (T)", "M6 6V5h12v1 M12 5v14 M9.5 19h5"], wipe: ["Eraser (E)", "M8 19l-4-4a1.5 1.5 0 0 1 0-2l8-8a1.5 1.5 0 0 1 2 0l5 5a1.5 1.5 0 0 1 0 2l-7 7z M9 9l6.5 6.5 M8 19h12"] };
// All are darker than any member's own colour.
const COLOURS = { "-": "Your own colour", "1e1e24": "Black", "9b1c1c": "Red", "6b4e00": "Brown", "0b4f1f": "Green", "153a8a": "Blue", "561b8a": "Violet" };
const WIDTHS = { 6: "Thin", 12: "Middle", 28: "Thick" }, SIZES = { 6: 60, 12: 90, 28: 150 };
const FILLS = { "": ["No filling", "M5 6h14v12H5z"], f: ["Filled lightly", "M5 6h14v12H5z M5 12l6-6 M5 18L17 6 M11 18l8-8"], s: ["Filled", "M5 6h14v12H5z M6 8h12 M6 10h12 M6 12h12 M6 14h12 M6 16h12"] };
let { tool = "pen", colour = "-", width = 12, isDashed = false, fill = "" } = stored(ALL, "ink", {});
if (!Object.hasOwn(ICONS, tool)) tool = "pen";
if (!Object.hasOwn(COLOURS, colour)) colour = "-";
if (!Object.hasOwn(WIDTHS, width)) width = 12;
if (!Object.hasOwn(FILLS, fill)) fill = "";
function setTool(name) { paper.style.cursor = ""; if (name !== "choose") choose([]); if (tool === "text" && name !== "text") endWords(); tool = name; showTools(); }
function setColour(dye) { colour = dye; placeWords(); restyle(() => ({ colour: dye === "-" ? dyeOf(me).slice(1) : dye })); }
function setWidth(broad) { width = broad; placeWords(); restyle(shape => ({ width: shape.kind === "text" ? SIZES[broad] : broad })); }
const styled = (kind, dash, filling) => kind === "text" || kind === "note" ? undefined : (dash ? "d" : "") + (kind === "rect" || kind === "oval" ? filling : "") || "-";
const fillingOf = shape => /[fs]$/.test(shape.style) ? shape.style.slice(-1) : "";
function setDash() { isDashed = !isDashed; restyle(shape => ({ style: styled(shape.kind, isDashed, fillingOf(shape)) })); }
function setFill() { const fills = Object.keys(FILLS); fill = fills[(fills.indexOf(fill) + 1) % fills.length]; restyle(shape => ({ style: styled(shape.kind, /^d/.test(shape.style), fill) })); }
function choice(id, isOn, does, title, className, ...kids) {
  const button = made("button", { id, className, title, onclick: () => { does(); showTools(); } }, ...kids);
  button.setAttribute("aria-pressed", isOn);
  button.setAttribute("aria-label", title);
  return button;
}
function icon(path) {
  const svg = document.createElementNS("http://www.w3.org/2000/svg", "svg"), line = document.createElementNS("http://www.w3.org/2000/svg", "path");
  svg.setAttribute("viewBox", "0 0 24 24"); svg.setAttribute("aria-hidden", "true"); line.setAttribute("d", path); svg.append(line);
  return svg;
}
function dyeButton(dye, title, i) {
  const button = choice("dye-" + dye, colour === dye, () => setColour(dye), `${title} (${i + 1})`, "dye", made("i"));
  button.style.setProperty("--c", seen(dye === "-" ? dyeOf(me) : "#" + dye));
  return button;
}
function widthButton([broad, title]) {
  const button = choice("width-" + broad, width === Number(broad), () => setWidth(Number(broad)), title + " ([ and ])", "thick", made("i"));
  button.style.setProperty("--w", 3 + broad / 2.4 + "px");
  return button;
}
function showTools() {
  const bar = $("tools"), focused = document.activeElement && document.activeElement.id;
  const kinds = Object.entries(ICONS).map(([name, [title, path]]) => choice("tool-" + name, tool === name, () => setTool(name), title, "tool", icon(path)));
  const dyes = Object.entries(COLOURS).map(([dye, title], i) => dyeButton(dye, title, i));
  const styles = [choice("dashed", isDashed, setDash, "Dashed (S)", "tool", icon("M3 12h4 M10 12h4 M17 12h4")), choice("fill", fill !== "", setFill, `${FILLS[fill][0]} (F)`, "tool", icon(FILLS[fill][1]))];
  bar.replaceChildren(made("div", { className: "row" }, ...kinds), made("span", { className: "gap" }), made("div", { className: "row looks" }, made("div", { className: "row" }, ...dyes), made("span", { className: "gap" }), made("div", { className: "row" }, ...Object.entries(WIDTHS).map(widthButton), made("span", { className: "gap" }), ...styles)));
  if (focused && bar.querySelector("#" + CSS.escape(focused))) $(focused).focus();
  paper.className = isOver ? "still" : ["wipe", "text", "choose"].includes(tool) ? tool : "";
  keepStored(ALL, "ink", { tool, colour, width, isDashed, fill });
}

