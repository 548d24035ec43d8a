// What a reader has chosen to see: which rows, which arrays with all their elements, and the arrows of which ranks. Links keep it.

const MOST_NAMES = 40;

class View {
  constructor() {
    Object.assign(this, { offered: [], hidden: new Set(), open: new Set(), changed: () => {} });
  }

  isShown(name) {
    return !this.hidden.has(name);
  }

  isOpen(name) {
    return this.open.has(name);
  }

  /** The names of the rows that there are at a stop. @param {string[]} names */
  offer(names) {
    const all = [...new Set([...names, ...this.hidden])].slice(0, MOST_NAMES);
    const isOther = all.join("\n") !== this.offered.join("\n");
    this.offered = all;
    isOther && $("rows").open && this.list();
  }

  /** Writes the list in which rows are chosen. */
  list() {
    $("rows-list").replaceChildren(made("thead", "", made("tr", "", made("th", "", "Row"), made("th", "", "Show"), made("th", "", "All elements"))),
      made("tbody", "", ...this.offered.map((name) => made("tr", "", made("th", "", name),
        made("td", "", this.box(`Show ${name}`, this.isShown(name), (isOn) => (isOn ? this.hidden.delete(name) : this.hidden.add(name)))),
        made("td", "", this.box(`All elements of ${name}`, this.isOpen(name), (isOn) => (isOn ? this.open.add(name) : this.open.delete(name))))))));
  }

  box(label, isOn, set) {
    const it = made("input");
    it.type = "checkbox";
    it.checked = isOn;
    it.setAttribute("aria-label", label);
    it.onchange = () => {
      set(it.checked);
      this.changed();
    };
    return it;
  }

  /** Shows all elements of an array, or folds it again. @param {string} name */
  toggle(name) {
    this.open.has(name) ? this.open.delete(name) : this.open.add(name);
    this.changed();
    $("rows").open && this.list();
  }

  /** As a part of an address. */
  link() {
    const part = (key, names) => (names.size === 0 ? "" : `&${key}=${[...names].map(encodeURIComponent).join(",")}`);
    const arrows = $("arrows").value === "all" ? "" : `&arrows=${$("arrows").value}`;
    return part("hide", this.hidden) + part("all", this.open) + arrows;
  }

  /** Takes what an address has of it. @param {string} text */
  follow(text) {
    const names = (key) => new Set((new RegExp(`&${key}=([^&]+)`).exec(text)?.[1] ?? "").split(",").filter((it) => it !== "").slice(0, MOST_NAMES).map(plainText));
    Object.assign(this, { hidden: names("hide"), open: names("all") });
    const arrows = /&arrows=(none|\d+)/.exec(text)?.[1] ?? "all";
    $("arrows").value = [...$("arrows").options].some((it) => it.value === arrows) ? arrows : "all";
  }
}

// A name of an address, as it was before it was spelled for one. One that is spelled wrong stays as it is.
function plainText(name) {
  try {
    return decodeURIComponent(name);
  } catch {
    return name;
  }
}
