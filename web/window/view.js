// The view: the whole paper, or a part of it.
let isDark = false;
const seen = colour => isDark ? nightly(colour) : colour;      // as the canvas shows it
const paper = $("paper"), base = $("base"), over = $("over");
let keep = document.createElement("canvas"), old = document.createElement("canvas");
const GREATEST_ZOOM = 16;
let zoom = 1, middle = [WIDE / 2, HIGH / 2], frameBox = { x: 0, y: 0, wide: 1, high: 1 }, scale = 1, corner = [0, 0], ratio = 1;
let movedAt = 0, overStale = true;

// The paper has the room that the panels leave it.
function fit() {
  const head = $("tools").offsetHeight + 12, foot = $("foot").offsetHeight + 12, beside = innerWidth > 900 && isMembered ? 276 : 0;
  document.documentElement.style.setProperty("--head", head + "px");
  document.documentElement.style.setProperty("--foot", foot + "px");
  const edge = innerWidth > 640 ? 12 : 6;
  frameBox = { x: edge, y: head + 8, wide: Math.max(40, innerWidth - 2 * edge - beside), high: Math.max(40, innerHeight - head - foot - 16) };
  document.documentElement.style.setProperty("--middle", frameBox.x + frameBox.wide / 2 + "px");
  ratio = devicePixelRatio || 1;
  const size = [Math.round(innerWidth * ratio), Math.round(innerHeight * ratio)];
  for (const canvas of [base, over, keep, old]) if (canvas.width !== size[0] || canvas.height !== size[1]) { [canvas.width, canvas.height] = size; kept.page = null; }
  look();
}
let isMembered = false;
function showMembers(isShown) {
  isMembered = isShown;
  document.body.classList.toggle("membered", isShown);
  $("who").setAttribute("aria-expanded", isShown);
  if (last) { showPeople(); showCounts(); }
  fit();
}

// Puts the paper where the zoom and its middle say, and never farther than its edges.
function look() {
  const whole = Math.min(frameBox.wide / WIDE, frameBox.high / HIGH);
  zoom = Math.max(1, Math.min(GREATEST_ZOOM, zoom));
  scale = whole * zoom;
  const half = [frameBox.wide / 2 / scale, frameBox.high / 2 / scale], size = [WIDE, HIGH];
  middle = middle.map((at, i) => half[i] * 2 >= size[i] ? size[i] / 2 : Math.max(half[i], Math.min(size[i] - half[i], at)));
  // In whole pixels, so that the part of the paper that is painted anew has straight edges.
  corner = [frameBox.x + frameBox.wide / 2 - middle[0] * scale, frameBox.y + frameBox.high / 2 - middle[1] * scale].map(at => Math.round(at * ratio) / ratio);
  Object.assign(paper.style, { left: corner[0] + "px", top: corner[1] + "px", width: WIDE * scale + "px", height: HIGH * scale + "px" });
  $("zoom").textContent = Math.round(zoom * 100) + "%";
  Object.assign($("hint").style, { left: frameBox.x + frameBox.wide / 2 + "px", top: frameBox.y + frameBox.high / 2 + "px", maxWidth: frameBox.wide - 40 + "px" });
  movedAt = performance.now();
  keepStored(TAB, "view", [zoom, middle]);
  placeWords(); refresh();
}
// Zooms so that what lies at a place of the window stays there.
function zoomAt(by, at = [frameBox.x + frameBox.wide / 2, frameBox.y + frameBox.high / 2]) {
  const centre = [frameBox.x + frameBox.wide / 2, frameBox.y + frameBox.high / 2], before = zoom;
  zoom = Math.max(1, Math.min(GREATEST_ZOOM, zoom * by));
  const after = scale * zoom / before;
  middle = middle.map((_, i) => (at[i] - corner[i]) / scale + (centre[i] - at[i]) / after);
  look();
}
function moveBy(dx, dy) { middle = [middle[0] - dx / scale, middle[1] - dy / scale]; look(); }

