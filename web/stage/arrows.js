// Arrows over the stage, from the bytes that are sent to where they land.

// Where there are more, those between the same two ranks are one; and the most that have labels.
const MOST_ARROWS = 48;
const MOST_LABELS = 32;
const MARGIN = 5;

class Arrows {
  /**
   * @param {HTMLElement} frame what scrolls
   * @param {(rank: number, address: number|undefined, isQueue: boolean, order: number|undefined) => Element|undefined} find
   */
  constructor(frame, find) {
    Object.assign(this, { frame, find });
    this.picture = drawn("svg", { class: "arrows", "aria-hidden": "true" });
    frame.append(this.picture);
  }

  /** @param {any[]} arrows @param {boolean} landed */
  show(arrows, landed) {
    const isMixed = new Set(arrows.map((it) => it.kind)).size > 1;
    const shown = arrows.length > MOST_ARROWS ? merged(arrows, isMixed) : arrows.map((it) => ({ ...it, label: labelOf(it, isMixed) }));
    this.hasLabels = shown.length <= MOST_LABELS;
    const box = this.frame.getBoundingClientRect();
    // A page that is printed is zoomed, and the picture with it.
    this.zoom = Number(document.body.style.zoom) || 1;
    const [width, height] = [this.frame.scrollWidth, this.frame.scrollHeight];
    this.picture.setAttribute("width", String(width));
    this.picture.setAttribute("height", String(height));
    this.picture.setAttribute("viewBox", `0 0 ${width} ${height}`);
    this.labels = [];
    this.box = { x: box.x - this.frame.scrollLeft * this.zoom, y: box.y - this.frame.scrollTop * this.zoom, width };
    this.picture.replaceChildren(heads(), ...shown.flatMap((it) => this.arrow(it, landed)));
  }

  // Where a part of the stage is, in the picture.
  middle(element) {
    const box = element.getBoundingClientRect();
    const [left, right, y] = [box.left - this.box.x, box.right - this.box.x, box.top + box.height / 2 - this.box.y];
    return { left: left / this.zoom, right: right / this.zoom, y: y / this.zoom };
  }

  arrow(it, landed) {
    const [from, to] = [this.find(it.from, it.begins, false), this.find(it.to, it.lands, it.kind === "message", it.order)];
    if (from === undefined || to === undefined) {
      return [];
    }
    const [a, b] = [this.middle(from), this.middle(to)];
    const isRight = b.left >= a.right - 1;
    const isSelf = it.from === it.to;
    const [x1, x2] = isSelf ? [a.right, b.right] : isRight ? [a.right, b.left - MARGIN] : [a.left, b.right + MARGIN];
    const bend = isSelf ? 24 : Math.max(18, Math.abs(x2 - x1) / 3) * (isRight ? 1 : -1);
    // One that would run through the boxes of other ranks goes in an arc below them.
    const sag = !isSelf && Math.abs(it.from - it.to) > 1 && Math.abs(a.y - b.y) < 60 ? 30 + 6 * Math.abs(it.from - it.to) : 0;
    const path = `M${x1} ${a.y} C${x1 + bend} ${a.y + sag} ${isSelf ? x2 + bend : x2 - bend} ${b.y + sag} ${x2} ${b.y}`;
    const kind = `arrow ${it.kind}${landed ? " landed" : ""}${it.isNow ? " now" : ""}${it.isWrong ? " wrong" : ""}`;
    const line = drawn("path", { d: path, class: kind, "marker-end": it.isWrong ? "url(#wrong)" : it.isNow ? "url(#now)" : "url(#head)" });
    if (!this.hasLabels && !it.isNow && !it.isWrong) {
      return [line];
    }
    const place = this.free((x1 + x2) / 2 + (isSelf ? 20 : 0), (a.y + b.y) / 2 - 4 + 0.75 * sag, it.label.length * 6 + 4);
    const label = drawn("text", { x: place.x, y: place.y, class: kind, "text-anchor": "middle" }, it.label);
    return [line, label];
  }

  // A place for a label that no other one has.
  free(x, y, width) {
    const half = width / 2;
    const at = { x: Math.max(half, Math.min(x, this.box.width - half)), y, width };
    while (this.labels.some((it) => Math.abs(it.x - at.x) < (it.width + width) / 2 && Math.abs(it.y - at.y) < 12)) {
      at.y += 12;
    }
    this.labels.push(at);
    return at;
  }
}

function heads() {
  const head = (id) => drawn("marker", { id, viewBox: "0 0 8 8", refX: 6, refY: 4, markerWidth: 7, markerHeight: 7, orient: "auto" },
    drawn("path", { d: "M0 0 L8 4 L0 8 Z", class: id }));
  return drawn("defs", {}, head("head"), head("now"), head("wrong"));
}

/** What stands at an arrow; its kind too, if there are several kinds, so that colours are not all that tells them apart. */
function labelOf(it, isMixed) {
  const tag = it.tag === undefined ? "" : `tag ${tagText(it.tag)}, `;
  return `${isMixed && tag === "" ? `${it.kind} ` : ""}${tag}${grouped(it.bytes)} B`;
}

/** A tag as a number if it has four bytes, else as it is. @param {Uint8Array} tag */
const tagText = (tag) => (tag.length === 4 ? String(signed(numberIn(tag))) : textIn(tag) ?? [...tag].map((it) => it.toString(16).padStart(2, "0")).join(""));

function merged(arrows, isMixed) {
  const found = new Map();
  for (const it of arrows) {
    const key = `${it.kind} ${it.from} ${it.to} ${Boolean(it.isWrong)}`;
    const old = found.get(key);
    old === undefined ? found.set(key, { ...it, count: 1 }) : Object.assign(old, { count: old.count + 1, bytes: old.bytes + it.bytes, isNow: old.isNow || it.isNow });
  }
  return [...found.values()].map((it) => ({ ...it, label: it.count === 1 ? labelOf(it, isMixed) : `${it.count} ${isMixed ? `${it.kind}s` : "×"}: ${grouped(it.bytes)} B` }));
}
