// Who sends how many bytes to whom, as a table: a row for each sender and a column for each receiver. The largest sum of a row or a column is h.

// With more ranks, the table has those that have a column on the stage; and with more than these, its cells are shades without numbers.
const MOST_IN_TABLE = 64;
const MOST_NUMBERS = 16;

/**
 * @param {any[]} arrows
 * @param {number} nodes
 * @param {number[]} shown the ranks that have a column on the stage
 * @param {boolean} isCounted whether the bytes count for h; those of a refused exchange do not
 */
function trafficTable(arrows, nodes, shown, isCounted) {
  const ranks = nodes > MOST_IN_TABLE ? shown : Array.from({ length: nodes }, (_, k) => k);
  const bytes = new Map();
  for (const it of arrows) {
    const key = it.from * nodes + it.to;
    bytes.set(key, (bytes.get(key) ?? 0) + it.bytes + (it.call.request.tagBytes ?? 0));
  }
  const between = (from, to) => bytes.get(from * nodes + to) ?? 0;
  const others = (sums) => ranks.map((rank) => sum(ranks.filter((it) => it !== rank).map((it) => sums(rank, it))));
  const [sent, received] = [others(between), others((to, from) => between(from, to))];
  const [most, h] = [Math.max(1, ...bytes.values()), Math.max(...sent, ...received)];
  const hasNumbers = ranks.length <= MOST_NUMBERS;
  const total = (it) => made("td", isCounted && it === h && h > 0 ? "sum h" : "sum", hasNumbers || it > 0 ? grouped(it) : "");
  // Small cells have room for every eighth number.
  const name = (it, k) => made("th", "", hasNumbers || k % 8 === 0 ? made("span", "", String(it)) : "");
  const head = made("tr", "", made("th", "", "from \\ to"), ...ranks.map(name), made("th", "", "sent"));
  $("traffic-table").className = hasNumbers ? "" : "small";
  const rows = ranks.map((from, k) => made("tr", "", made("th", "", String(from)),
    ...ranks.map((to) => trafficCell(from, to, between(from, to), most, hasNumbers)), total(sent[k])));
  const last = made("tr", "", made("th", "", "received"), ...received.map((it) => (hasNumbers ? total(it) : made("td", ""))), made("td", "sum", isCounted ? `h = ${grouped(h)}` : ""));
  return [made("thead", "", head), made("tbody", "", ...rows, last)];
}

function trafficCell(from, to, count, most, hasNumbers) {
  const it = made("td", from === to ? "own" : "", hasNumbers && count > 0 ? grouped(count) : "");
  it.title = `${counted(count, "byte")} from rank ${from} to rank ${to}${from === to ? ", which do not count for h" : ""}`;
  if (count > 0 && from !== to) {
    it.style.setProperty("--share", `${Math.round(12 + (33 * count) / most)}%`);
    it.classList.add("some");
  }
  return it;
}
