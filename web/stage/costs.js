// What supersteps cost: w, h and l of the one that is shown, as far as it has come, the totals, and all supersteps behind the slider.

// The most columns of the picture behind the slider; where there are more supersteps, several of them share one, whose dearest is drawn.
const MOST_COLUMNS = 400;
const PICTURE_HEIGHT = 48;
// The pixels that a superstep's number takes below the slider, and those of its number with its cost.
const NUMBER_WIDTH = 60;
const COST_WIDTH = 100;

/** The cost of each superstep at these prices. @param {Superstep[]} supersteps @param {bigint} g @param {bigint} l */
const costOf = (it, g, l) => BigInt(it.most) + g * BigInt(it.h) + l;

/** The value of a field with a whole number, and at least 0. @param {string} text */
const priceOf = (text) => (/^\d{1,10}$/.test(text.trim()) ? BigInt(text.trim()) : 0n);

// A slider's places are those of a number on a scale of powers.
const STEPS_OF_TEN = 20;
const toSlider = (number) => Math.round(Math.log10(Number(number) + 1) * STEPS_OF_TEN);
const fromSlider = (place) => BigInt(Math.round(10 ** (Number(place) / STEPS_OF_TEN)) - 1);

class Costs {
  /** @param {() => void} changed is called as g or l changes */
  constructor(changed) {
    this.changed = changed;
    for (const name of ["g", "l"]) {
      const [field, slider] = [$(name), $(`${name}-slider`)];
      field.oninput = () => {
        slider.value = String(toSlider(priceOf(field.value)));
        this.draw();
      };
      slider.oninput = () => {
        field.value = String(fromSlider(slider.value));
        this.draw();
      };
    }
  }

  get g() {
    return priceOf($("g").value);
  }

  get l() {
    return priceOf($("l").value);
  }

  /** @param {Machine} machine */
  begin(machine) {
    this.supersteps = machine.supersteps;
    this.nodes = machine.nodes;
    for (const name of ["g", "l"]) {
      $(name).value = String(machine.settings[name]);
      $(`${name}-slider`).value = String(toSlider(machine.settings[name]));
    }
    this.sums = [[0n, 0n]];
    for (const it of this.supersteps) {
      const [w, h] = this.sums[this.sums.length - 1];
      this.sums.push([w + BigInt(it.most), h + BigInt(it.h)]);
    }
    this.stop = undefined;
    this.draw();
  }

  /** What the supersteps before this one cost. @param {number} superstep */
  total(superstep) {
    const [w, h] = this.sums[superstep];
    return w + this.g * h + this.l * BigInt(superstep);
  }

  /** Shows a stop, at which ranks have made so many instructions, and have sent and received so many bytes. */
  show(stop, sent, received, shown) {
    Object.assign(this, { stop, sent, received, ranks: shown });
    this.draw();
  }

  draw() {
    if (this.supersteps === undefined) {
      return;
    }
    this.drawAll();
    if (this.stop !== undefined) {
      this.drawSuperstep();
    }
    this.changed();
  }

  drawSuperstep() {
    const { superstep, place } = this.stop;
    const it = this.supersteps[superstep];
    const w = Math.max(...place.ticks);
    const h = Math.max(...this.sent, ...this.received);
    const most = Math.max(1, it.most);
    const mostBytes = Math.max(1, it.h, h);
    const row = (kind, name, note, values, mostOfAll) => {
      const head = made("th", "name", name, " ", made("span", "note", note));
      head.scope = "row";
      return made("tr", "costs", head, ...this.ranks.map((rank) => barCell(kind, values[rank], mostOfAll, grouped(values[rank]))));
    };
    $("bars").replaceChildren(row("work", "w", "instructions", place.ticks, most), row("sent", "sent", "bytes", this.sent, mostBytes),
      row("received", "received", "bytes", this.received, mostBytes));
    const whole = costOf(it, this.g, this.l);
    $("formula").textContent = `Superstep ${superstep}, so far: w = ${grouped(w)}, h = ${counted(h, "byte")}.`;
    $("whole").textContent = `Superstep ${superstep} as a whole: w ${grouped(it.most)} + g ${grouped(this.g)} × h ${grouped(it.h)} + l ${grouped(this.l)} = ${grouped(whole)}.`;
    const isWhole = superstep === this.supersteps.length - 1;
    $("running").textContent = isWhole || superstep === 0 ? "" : `Supersteps 0 to ${superstep}: ${this.spelled(superstep + 1)}.`;
  }

  /** The total of the first supersteps as a sum. @param {number} count */
  spelled(count) {
    const [w, h] = this.sums[count];
    return `w ${grouped(w)} + g ${grouped(this.g)} × h ${grouped(h)} + ${grouped(count)} × l ${grouped(this.l)} = ${grouped(this.total(count))}`;
  }

  drawAll() {
    const count = this.supersteps.length;
    $("total").textContent = `${count === 1 ? "The run" : `All ${grouped(count)} supersteps`}: ${this.spelled(count)}.`;
    this.drawNumbers();
    const size = Math.ceil(count / MOST_COLUMNS);
    const columns = [];
    for (let k = 0; k < count; k += size) {
      let dearest = this.supersteps[k];
      for (const it of this.supersteps.slice(k, k + size)) {
        dearest = costOf(it, this.g, this.l) > costOf(dearest, this.g, this.l) ? it : dearest;
      }
      columns.push([dearest.most, Number(this.g) * dearest.h, Number(this.l)]);
    }
    const most = Math.max(1, ...columns.map((it) => sum(it)));
    const paths = ["", "", ""];
    columns.forEach((parts, k) => {
      let top = PICTURE_HEIGHT;
      parts.forEach((part, kind) => {
        const height = (part / most) * PICTURE_HEIGHT;
        paths[kind] += `M${columns.length > 60 ? k : k + 0.05} ${top.toFixed(2)}h${columns.length > 60 ? 1 : 0.9}v${(-height).toFixed(2)}h${columns.length > 60 ? -1 : -0.9}z`;
        top -= height;
      });
    });
    const picture = $("supersteps");
    picture.setAttribute("viewBox", `0 0 ${columns.length} ${PICTURE_HEIGHT}`);
    picture.replaceChildren(...["work", "exchange", "end"].map((name, kind) => drawn("path", { d: paths[kind], class: name })));
    const at = Math.floor((this.stop?.superstep ?? 0) / size);
    picture.prepend(drawn("rect", { x: at, y: 0, width: 1, height: PICTURE_HEIGHT, class: "now" }));
    // The slider's thumb stands below the middle of its superstep.
    $("superstep").style.marginLeft = `calc(${50 / columns.length}% - .5rem)`;
    $("superstep").style.width = `calc(${100 - 100 / columns.length}% + 1rem)`;
  }

  // The numbers of supersteps below the slider, and what each costs if there are few.
  drawNumbers() {
    const count = this.supersteps.length;
    const room = $("numbers").clientWidth;
    const step = roundStep(count / Math.max(1, Math.floor(room / NUMBER_WIDTH)));
    const marks = [];
    for (let k = 0; k < count; k += step) {
      const cost = count <= room / COST_WIDTH ? `: ${grouped(costOf(this.supersteps[k], this.g, this.l))}` : "";
      const it = made("span", k === this.stop?.superstep ? "now" : "", made("span", "", `${k}${cost}`));
      it.style.left = `${(100 * (k + 0.5)) / count}%`;
      marks.push(it);
    }
    $("numbers").replaceChildren(...marks);
  }

  /** The superstep at a place of the picture, from 0 at its left to 1 at its right. */
  superstepAt(share) {
    return Math.min(this.supersteps.length - 1, Math.floor(share * this.supersteps.length));
  }
}

function barCell(kind, value, most, text) {
  const bar = made("span", `bar ${kind}`);
  bar.style.width = `${Math.round((100 * value) / most)}%`;
  return made("td", "", made("span", "value", text), made("span", "track", bar));
}

/** The smallest of 1, 2, 5, 10, 20, 50 and so on that is not below a number. @param {number} least */
function roundStep(least) {
  for (let ten = 1; ; ten *= 10) {
    const found = [1, 2, 5].find((it) => it * ten >= least);
    if (found !== undefined) {
      return found * ten;
    }
  }
}
