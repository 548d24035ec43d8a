// The stage: a column for each rank, with its state, its areas and variables, its queue; and the arrows between them. More ranks than fit
// side by side stand in a table of their own, from which those are chosen that have a column.

const MOST_COLUMNS_OF_RANKS = 16;
const MOST_WIDE_COLUMNS = 6;
const MOST_SHOWN_OUTPUT = 20_000;
// The requests whose bytes are marked.
const MOST_TOUCHING = 600;

class Stage {
  /** @param {Names} names */
  constructor(names) {
    this.names = names;
    // What areas have whose elements nobody knows.
    this.unknown = { int: names.types.push({ kind: "int", size: 4, name: "int" }) - 1, double: names.types.push({ kind: "float", size: 8, name: "double" }) - 1,
      float: names.types.push({ kind: "float", size: 4, name: "float" }) - 1, byte: names.types.push({ kind: "unsigned", size: 1, name: "byte" }) - 1,
      text: names.types.push({ kind: "char", size: 1, name: "char" }) - 1 };
    this.arrows = new Arrows($("stage"), (...place) => this.find(...place));
    this.cells = new Map();
    this.view = new View();
  }

  /** The number of the type that bytes without a type are shown as. */
  get plain() {
    return this.unknown[$("plain").value];
  }

  /**
   * Shows the ranks of a look at the machine.
   * @param {any} now the looks at ranks, by rank
   * @param {any} before the same of the stop before, or nothing
   * @param {Map<number, Set<number>>} contested
   * @param {Map<number, Set<number>>} exposed
   * @param {any[]} arrows what is on its way, or has landed
   * @param {Stop} stop
   */
  show(now, before, contested, exposed, arrows, stop) {
    const looks = now.looks;
    this.framed = new Map();
    const hasMessages = arrows.some((it) => it.kind === "message");
    this.touched = touchedBytes(arrows, looks);
    this.most = looks.length > MOST_WIDE_COLUMNS ? MOST_ELEMENTS : MOST_OF_FEW_RANKS;
    this.left = MOST_VALUES;
    this.cells = new Map(looks.map((it) => [it.rank, []]));
    this.queues = new Map();
    this.landed = new Map();
    this.heads = new Map();
    const active = stop.call?.rank ?? (stop.kind === "line" ? stop.rank : undefined);
    const states = made("tr", "states", made("th", "name", "state"), ...looks.map((it) => made("td", stateClass(it.node.state), stateAt(it, stop, active))));
    const rows = this.rows(looks, before?.looks);
    const areas = rows.filter((it) => it.className === "area");
    const others = rows.filter((it) => it.className !== "area");
    const queue = hasMessages || looks.some((it) => it.queue.count > 0) ? [this.queueRow(looks)] : [];
    $("ranks").className = looks.length > MOST_WIDE_COLUMNS ? "dense" : "";
    $("heads").replaceChildren(made("tr", "", made("td", "corner"), ...looks.map((it) => this.head(it, it.rank === active))));
    $("states").replaceChildren(states);
    $("boxes").replaceChildren(...areas, ...queue, ...others);
    this.markBytes(contested, "contested", "two requests bring different values here");
    this.markBytes(exposed, "exposed", "one request reads this, and another one writes it, in an open order");
  }

  head(look, isActive) {
    const it = made("th", isActive ? "rank active" : "rank", `rank ${look.rank}`);
    it.scope = "col";
    it.title = "Show the arrows of this rank only, or of all again";
    it.dataset.rank = String(look.rank);
    this.heads.set(look.rank, it);
    return it;
  }

  // A row for each variable or area that some rank has.
  rows(looks, before) {
    const keys = new Map();
    for (const look of looks) {
      for (const box of look.boxes) {
        keys.has(box.key) || keys.set(box.key, box);
      }
    }
    this.view.offer([...keys.values()].map((it) => it.name));
    return orderedKeys(keys).filter((key) => this.view.isShown(keys.get(key).name)).map((key) => {
      const box = keys.get(key);
      const name = made("th", box.isArea ? "name area" : "name", box.name, " ", made("span", "note", box.note));
      name.scope = "row";
      return made("tr", box.isArea ? "area" : "", name, ...looks.map((look, k) => this.cellOf(look, key, before?.[k])));
    });
  }

  cellOf(look, key, before) {
    const box = look.boxes.find((it) => it.key === key);
    if (box === undefined) {
      return made("td", "none", "–");
    }
    const old = before?.boxes.find((it) => it.key === key && it.address === box.address && it.bytes.length === box.bytes.length);
    const cell = made("td", box.isArea ? "box area" : "box", this.value(look, box, old?.bytes));
    box.bytes.length < box.size && cell.append(made("p", "note", `the first ${grouped(box.bytes.length)} of ${counted(box.size, "byte")}`));
    cell.dataset.rank = String(look.rank);
    cell.dataset.name = box.name;
    if (box.address !== undefined) {
      cell.dataset.address = String(box.address);
      this.cells.get(look.rank).push({ box, cell });
    }
    return cell;
  }

  value(look, box, old) {
    const touched = (this.touched.get(look.rank) ?? []).filter(([begin, end]) => begin < box.address + box.size && end > box.address);
    const inside = touched.map(([begin, end]) => [begin - box.address, end - box.address]);
    const isOpen = this.view.isOpen(box.name);
    const room = { left: isOpen ? this.left : Math.min(MOST_OF_FOLDED, this.left) };
    const all = room.left;
    const shown = new Shown(this.names.types, (address) => this.named(look, address), isOpen, inside, this.most, room);
    const found = this.valueIn(shown, box, old);
    this.left -= all - room.left;
    return found;
  }

  valueIn(shown, box, old) {
    if (box.type !== undefined) {
      return shown.value(box.type, box.bytes, old);
    }
    const of = box.of ?? this.plain;
    const size = this.names.types[of]?.size || 1;
    const text = this.names.types[of]?.size === 1 && this.names.types[of].kind === "char" ? textIn(box.bytes) : undefined;
    return text !== undefined ? shown.cell(text, 0, box.bytes, old) : shown.row(of, size, box.bytes, old, 0);
  }

  /** An address as the name of what stands there. */
  named(look, address) {
    if (address === 0) {
      return "NULL";
    }
    const box = look.boxes.find((it) => holds(it, address));
    const size = this.names.types[box?.of ?? this.names.types[box?.type]?.of]?.size ?? 0;
    const offset = address - (box?.address ?? 0);
    if (box === undefined) {
      return this.names.function(address)?.[2] ?? `0x${address.toString(16)}`;
    }
    const name = box.name.replace(/\[\]$/, "");
    return size > 0 && offset % size === 0 ? `→ ${name}[${offset / size}]` : offset === 0 ? `→ ${name}` : `→ ${name} + ${offset}`;
  }

  queueRow(looks) {
    const name = made("th", "name", "queue", made("span", "note", "messages not moved yet"));
    name.scope = "row";
    return made("tr", "queue", name, ...looks.map((look) => {
      const cell = made("td", "", ...this.messages(look));
      this.queues.set(look.rank, cell);
      return cell;
    }));
  }

  messages(look) {
    const { queue } = look;
    if (queue.count === 0) {
      return [made("span", "none", "empty")];
    }
    const parts = queue.messages.map((it) => made("div", "message", made("span", "from", `from ${it.from}${it.tag.length > 0 ? `, tag ${tagText(it.tag)}` : ""}: `),
      payloadText(it.payload, this.names.types[this.plain])));
    this.landed.set(look.rank, parts);
    const left = queue.count - queue.messages.length;
    return left > 0 ? [...parts, made("p", "note", `and ${counted(left, "more message")}`)] : parts;
  }

  /** The element for an address of a rank; the head of the rank's column if nothing there is shown; nothing if the rank has no column. */
  find(rank, address, isQueue, order) {
    if (isQueue) {
      return this.landed.get(rank)?.[order] ?? this.queues.get(rank);
    }
    const found = this.cells.get(rank)?.find(({ box }) => address !== undefined && holds(box, address));
    if (found === undefined) {
      return this.heads.get(rank);
    }
    return partOf(found, address) ?? found.cell;
  }

  /** Frames the cells whose bytes requests take, and those to which they bring some, and no others. @param {any[]} arrows @param {boolean} hasLanded */
  frame(arrows, hasLanded) {
    for (const [cell, title] of this.framed) {
      cell.classList.remove("taken", "brought", "asked", "by-put", "by-get", "by-message");
      cell.title = title;
    }
    this.framed.clear();
    for (const it of arrows.slice(0, MOST_TOUCHING)) {
      this.frameCells(it.from, it.begins, it.bytes, `taken by-${it.kind}`, `${it.kind} to rank ${it.to}`);
      it.kind !== "message" && this.frameCells(it.to, it.lands, it.bytes, `brought by-${it.kind}${hasLanded ? "" : " asked"}`, `${it.kind} from rank ${it.from}`);
    }
  }

  frameCells(rank, address, count, words, title) {
    const found = address === undefined ? undefined : this.cells.get(rank)?.find(({ box }) => holds(box, address));
    const [begin, end] = found === undefined ? [0, 0] : [address - found.box.address, address - found.box.address + count];
    for (const cell of found?.cell.querySelectorAll(".cell") ?? []) {
      if (Number(cell.dataset.at) < end && Number(cell.dataset.at) + Number(cell.dataset.size) > begin) {
        this.framed.has(cell) || this.framed.set(cell, cell.title);
        cell.classList.add(...words.split(" "));
        cell.title = cell.title === "" ? title : cell.title.includes(title) ? cell.title : `${cell.title}, ${title}`;
      }
    }
  }

  // Marks the parts of boxes that have such bytes.
  markBytes(bytes, word, meaning) {
    for (const [rank, addresses] of bytes) {
      for (const address of addresses) {
        const it = this.cells.has(rank) ? this.find(rank, address, false) : undefined;
        if (it !== undefined && !it.classList.contains(word)) {
          it.classList.add(word);
          it.title = `${word}: ${meaning}`;
          it.append(made("span", "sign", ` ${word}`));
        }
      }
    }
  }

  /** The table of all ranks, if they do not all have a column. */
  overview(places, stop, sent, received, shown, choose) {
    $("overview").hidden = places.length <= MOST_COLUMNS_OF_RANKS;
    if ($("overview").hidden) {
      return;
    }
    const most = Math.max(1, ...stop.place.ticks);
    const mostBytes = Math.max(1, ...sent, ...received);
    $("all").replaceChildren(...places.map((it) => {
      const button = made("button", "", String(it.rank));
      button.type = "button";
      button.title = "Show this rank and those after it as columns";
      button.onclick = () => choose(it.rank);
      const { line } = it.place;
      return made("tr", shown.includes(it.rank) ? "chosen" : "", made("th", "", button), made("td", stateClass(it.state), stateText(it.state)),
        made("td", "", line > 0 ? `line ${line}` : hex(it.pc)), barCell("work", stop.place.ticks[it.rank], most, grouped(stop.place.ticks[it.rank])),
        barCell("sent", sent[it.rank], mostBytes, grouped(sent[it.rank])), barCell("received", received[it.rank], mostBytes, grouped(received[it.rank])));
    }));
  }
}

/** The keys of boxes: areas first, then what the program's variables are. */
function orderedKeys(boxes) {
  const place = (box) => (box.isArea ? 0 : box.key.startsWith("p ") ? 1 : box.key.startsWith("l ") ? 2 : 3);
  return [...boxes.keys()].map((key, k) => [key, k]).sort((a, b) => place(boxes.get(a[0])) - place(boxes.get(b[0])) || a[1] - b[1]).map(([key]) => key);
}

// The smallest part of a box that has an address.
function partOf({ box, cell }, address) {
  const offset = address - box.address;
  const parts = [...cell.querySelectorAll(".cell")];
  return parts.find((it) => Number(it.dataset.at) <= offset && offset < Number(it.dataset.at) + Number(it.dataset.size));
}

/** What a state is called for a person. */
const stateText = (state) => ({ synced: "waits", running: "runs" })[state] ?? state;

// The same of a rank at a stop, of which one rank has come there, the active one: what it does there, and that others have yet to begin.
function stateAt(look, stop, active) {
  const isRunning = look.node.state === "running" && active !== undefined;
  if (isRunning && look.rank === active && stop.call !== undefined) {
    return `calls ${CALLS[stop.call.number]?.[0] ?? stop.call.number}`;
  }
  return isRunning && stop.place.ticks[look.rank] === 0 ? "not begun" : stateText(look.node.state);
}

/** Where the bytes begin and end that requests take or bring, by ranks. */
function touchedBytes(arrows, looks) {
  const found = new Map(looks.map((it) => [it.rank, []]));
  for (const it of arrows.slice(0, MOST_TOUCHING)) {
    it.begins !== undefined && found.get(it.from)?.push([it.begins, it.begins + it.bytes]);
    it.kind !== "message" && it.lands !== undefined && found.get(it.to)?.push([it.lands, it.lands + it.bytes]);
  }
  return found;
}
const stateClass = (state) => (state === "running" ? "runs" : state === "synced" ? "waits" : state === "ended" ? "ended" : "wrong");

/** A payload, of which nobody knows what it is: a text, or numbers. */
function payloadText(bytes, type) {
  if (bytes.length === 0) {
    return "no bytes";
  }
  const text = type.kind === "char" ? textIn(bytes) : undefined;
  const size = bytes.length % type.size === 0 ? type.size : 1;
  const element = size === type.size ? type : { kind: "unsigned", size: 1 };
  const count = Math.min(8, bytes.length / size);
  const parts = Array.from({ length: count }, (_, k) => scalar(element, bytes.slice(k * size, (k + 1) * size), hex));
  return text ?? `${parts.join(" ")}${bytes.length / size > count ? ` … (${bytes.length / size})` : ""}`;
}
