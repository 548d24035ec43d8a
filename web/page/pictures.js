// Pictures of what a run cost: the supersteps, and of its profile the timeline and the bytes between ranks. They have the colours and the
// words of bspplot's.

const COLORS = { work: "var(--work)", wait: "var(--wait)", exchange: "var(--exchange)", end: "var(--end)" };
const MOST_BARS = 200;
const MOST_ROWS = 64;
// How many ranks the name of a picture tells of.
const MOST_TOLD = 16;
const LETTER = 6.2;
// As wide as the page lets them be, so that their letters have one size on each screen.
const widthHere = () => Math.max(300, Math.min(720, $("result").clientWidth));

const grouped = (number) => number.toLocaleString("en");

function drawn(name, given, text) {
  const made = document.createElementNS("http://www.w3.org/2000/svg", name);
  Object.entries(given).forEach(([key, it]) => made.setAttribute(key, it));
  if (text !== undefined) {
    made.textContent = text;
  }
  return made;
}

// A picture with a name for those who do not see it.
function canvas(width, height, label) {
  return drawn("svg", { viewBox: `0 0 ${width} ${height}`, width, height, role: "img", "aria-label": label });
}

function box(svg, x, y, width, height, fill, title) {
  if (width <= 0 || height <= 0) {
    return;
  }
  const made = drawn("rect", { x, y, width, height, style: `fill: ${fill}` });
  made.append(drawn("title", {}, title));
  svg.append(made);
}

const write = (svg, x, y, text, anchor = "middle") => svg.append(drawn("text", { x, y, "text-anchor": anchor }, text));

// What the colours are, one beside the other, or below it where there is no room.
function legend(svg, wide, y, names) {
  let x = 8;
  for (const [color, text] of names) {
    const width = 24 + text.length * LETTER;
    if (x + width > wide && x > 8) {
      x = 8;
      y += 16;
    }
    box(svg, x, y, 10, 10, color, text);
    write(svg, x + 15, y + 9, text, "start");
    x += width;
  }
}

// The costs of the supersteps: work below, then the exchange, then the end.
function costsPicture(rows, g, l) {
  const shown = rows.slice(0, MOST_BARS);
  const left = 76;
  const low = 190;
  const parts = shown.map(({ w, h }) => [w, g * h, l]);
  // The legend is of the whole run, also if there are more supersteps than bars.
  const sums = rows.reduce((sum, { w, h }) => [sum[0] + w, sum[1] + g * h, sum[2] + l], [0, 0, 0]);
  const whole = Math.max(sums[0] + sums[1] + sums[2], 1);
  const most = Math.max(1, ...parts.map((it) => it[0] + it[1] + it[2]));
  const width = widthHere();
  const svg = canvas(width, 270, "The cost of each superstep as a bar");
  const names = ["work, w", "exchange, g·h", "end, l"];
  const colors = [COLORS.work, COLORS.exchange, COLORS.end];
  const wide = (width - left - 8) / Math.max(shown.length, 1);
  const tall = (ticks) => (ticks / most) * (low - 24);
  shown.forEach(({ k }, place) => {
    const x = left + place * wide;
    let top = low;
    parts[place].forEach((ticks, part) => {
      top -= tall(ticks);
      box(svg, x + wide * 0.1, top, wide * 0.8, tall(ticks), colors[part], `superstep ${k}: ${names[part]} = ${grouped(ticks)}`);
    });
    const sum = grouped(parts[place][0] + parts[place][1] + parts[place][2]);
    if (sum.length * LETTER < wide) {
      write(svg, x + wide / 2, top - 4, sum);
    }
    if (place % Math.ceil((shown.length * 30) / width) === 0) {
      write(svg, x + wide / 2, low + 14, String(k));
    }
  });
  svg.append(drawn("line", { x1: left, x2: width - 8, y1: low, y2: low, stroke: "currentColor" }));
  [0, 0.5, 1].forEach((share) => write(svg, left - 6, low - tall(share * most) + 4, grouped(Math.round(share * most)), "end"));
  write(svg, 8, 12, "ticks", "start");
  write(svg, width - 8, low + 30, "superstep", "end");
  legend(svg, width, low + 38, names.map((name, part) => [colors[part], `${name}: ${grouped(sums[part])} ticks, ${((100 * sums[part]) / whole).toFixed(1)} %`]));
  return svg;
}

// The rows of a profile: for each superstep the ranks, and what went from rank to rank.
function profileOf(text) {
  const supersteps = [];
  for (const line of text.split("\n").slice(1).filter((it) => it !== "")) {
    const fields = line.split(",");
    const [k, rank] = [Number(fields[0]), Number(fields[1])];
    supersteps[k] ??= { k, ticks: [], sent: [], received: [], moved: [] };
    if (fields[2] === "") {
      supersteps[k].ticks[rank] = Number(fields[3]);
      supersteps[k].sent[rank] = Number(fields[4]);
      supersteps[k].received[rank] = Number(fields[5]);
    } else {
      supersteps[k].moved.push([rank, Number(fields[2]), Number(fields[4])]);
    }
  }
  return supersteps;
}

// The timeline: the work and the waiting of each rank, then the exchange and the end. Where there are many ranks, neighbours share a row,
// which has the most of their work.
function timelinePicture(supersteps, rows, g, l) {
  const shown = supersteps.slice(0, MOST_BARS);
  const nodes = shown[0].ticks.length;
  const group = Math.ceil(nodes / MOST_ROWS);
  const bands = Math.ceil(nodes / group);
  const tall = Math.max(5, Math.min(20, 320 / bands));
  const [left, top] = [56, 22];
  const low = top + bands * tall;
  const width = widthHere();
  const svg = canvas(width, low + 62, "The timeline of the ranks");
  const whole = Math.max(1, rows.slice(0, shown.length).reduce((sum, { w, h }) => sum + w + g * h + l, 0));
  const scale = (width - left - 8) / whole;
  let start = 0;
  let named = 0;
  for (const { k, ticks } of shown) {
    const { w, h } = rows[k];
    for (let band = 0; band < bands; band++) {
      const work = Math.max(...ticks.slice(band * group, (band + 1) * group));
      const y = top + band * tall + tall * 0.1;
      const who = group === 1 ? `rank ${band}` : `ranks ${band * group} to ${Math.min((band + 1) * group, nodes) - 1}`;
      box(svg, left + start * scale, y, work * scale, tall * 0.8, COLORS.work, `superstep ${k}, ${who}: work ${grouped(work)}`);
      const waits = w - work;
      box(svg, left + (start + work) * scale, y, waits * scale, tall * 0.8, COLORS.wait, `superstep ${k}, ${who}: waits ${grouped(waits)}`);
    }
    box(svg, left + (start + w) * scale, top, g * h * scale, low - top, COLORS.exchange, `superstep ${k}: g·h = ${g} × ${h} = ${grouped(g * h)}`);
    box(svg, left + (start + w + g * h) * scale, top, l * scale, low - top, COLORS.end, `superstep ${k}: l = ${grouped(l)}`);
    const middle = left + (start + (w + g * h + l) / 2) * scale;
    if (middle - named > (String(k).length + 1) * LETTER) {
      write(svg, middle, top - 6, String(k));
      named = middle;
    }
    start += w + g * h + l;
    svg.append(drawn("line", { x1: left + start * scale, x2: left + start * scale, y1: top, y2: low, stroke: "currentColor", "stroke-width": 0.6 }));
  }
  const step = Math.ceil(bands / Math.max(1, Math.floor((low - top) / 14)));
  for (let band = 0; band < bands; band += step) {
    write(svg, left - 6, top + (band + 0.5) * tall + 4, String(band * group), "end");
  }
  write(svg, 8, 12, "superstep", "start");
  write(svg, left, low + 14, "0");
  write(svg, width - 8, low + 14, `${grouped(whole)} ticks`, "end");
  const names = [[COLORS.work, "work"], [COLORS.wait, "waiting for the slowest rank"], [COLORS.exchange, "exchange, g·h"], [COLORS.end, "end, l"]];
  legend(svg, width, low + 28, names);
  return svg;
}

// The bytes that went from rank to rank, as a square of cells. Where there are many ranks, neighbours share a row and a column.
function bytesPicture(supersteps) {
  const nodes = supersteps[0].ticks.length;
  const group = Math.ceil(nodes / MOST_ROWS);
  const rows = Math.ceil(nodes / group);
  const found = new Map();
  for (const { moved } of supersteps) {
    for (const [rank, to, count] of moved.filter(([from, at]) => from !== at)) {
      const key = Math.floor(rank / group) * rows + Math.floor(to / group);
      found.set(key, (found.get(key) ?? 0) + count);
    }
  }
  const sums = (name) => Array.from({ length: nodes }, (_, rank) => supersteps.reduce((sum, it) => sum + it[name][rank], 0));
  const [sent, received] = [sums("sent"), sums("received")];
  const width = widthHere();
  const size = Math.min(34, Math.min(400, width - 90) / rows);
  const [left, top] = [64, 40];
  const low = top + rows * size;
  const told = sent.slice(0, MOST_TOLD).map((count, rank) => `rank ${rank} sent ${grouped(count)} and received ${grouped(received[rank])}`);
  const svg = canvas(width, low + 40, `The bytes from rank to rank: ${told.join("; ")}${nodes > MOST_TOLD ? "; and so on" : ""}`);
  const most = Math.max(1, ...found.values());
  for (const [key, count] of found) {
    const [rank, to] = [Math.floor(key / rows), key % rows];
    const share = 15 + (85 * count) / most;
    const text = `${grouped(count)} bytes from ${group === 1 ? "rank" : "ranks from"} ${rank * group} to ${group === 1 ? "rank" : "ranks from"} ${to * group}`;
    box(svg, left + to * size, top + rank * size, size - 0.5, size - 0.5, `color-mix(in srgb, var(--work) ${share.toFixed(0)}%, var(--paper))`, text);
  }
  svg.append(drawn("rect", { x: left, y: top, width: rows * size, height: rows * size, fill: "none", stroke: "currentColor", "stroke-width": 0.6 }));
  const step = Math.ceil(18 / size);
  for (let row = 0; row < rows; row += step) {
    write(svg, left - 5, top + (row + 0.5) * size + 4, String(row * group), "end");
    write(svg, left + (row + 0.5) * size, top - 5, String(row * group));
  }
  write(svg, left, 12, "to rank", "start");
  write(svg, 8, top + 4, "from", "start");
  if (group === 1 && left + rows * size + 8 + 30 * LETTER < width) {
    sent.forEach((count, rank) => rank % step === 0 && write(svg, left + rows * size + 8, top + (rank + 0.5) * size + 4, `${grouped(count)} sent, ${grouped(received[rank])} received`, "start"));
  }
  write(svg, left, low + 18, found.size === 0 ? "No bytes went from rank to rank." : `The darkest cell: ${grouped(most)} bytes.`, "start");
  return svg;
}
