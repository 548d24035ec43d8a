// What the page says of a stop: a sentence, the list of what was asked for, and what went wrong.

const KINDS = { put: "put", get: "get", message: "message" };
const MOST_LISTED = 60;
// What the machine's names of faults mean.
const MEANINGS = {
  Misaligned: "an address is not a multiple of what it has to be", FetchOutside: "execution left the memory",
  IllegalInstruction: "there is no such instruction", LoadOutside: "it read outside of the memory", StoreOutside: "it wrote outside of the memory",
  Break: "it came to a breakpoint of its own", BadRank: "no rank has this number", RangeOutside: "the bytes do not lie in the memory",
  NotRegistered: "no area is registered at this address", TooMuch: "the call exceeds a limit of the machine", BadSize: "the tag size is too large",
  UnknownCall: "there is no such call", OutsideArea: "the bytes do not lie in the registered area", TagMismatch: "ranks set different tag sizes",
  SlotMismatch: "ranks did not register the same areas in the same order",
};

/** How many requests there are of each kind, and how many bytes they have. */
function amounts(arrows) {
  const parts = Object.keys(KINDS).map((kind) => [kind, arrows.filter((it) => it.kind === kind).length]).filter(([, count]) => count > 0);
  const [last, ...others] = parts.map(([kind, count]) => counted(count, KINDS[kind])).reverse();
  const all = others.length === 0 ? last : `${others.reverse().join(", ")} and ${last}`;
  return parts.length === 0 ? "nothing" : `${all}, ${counted(sum(arrows.map((it) => it.bytes)), "byte")} in all`;
}

/** @param {Moves} moves @param {Stop} stop */
function sentence(moves, stop, requests) {
  const { superstep, kind, call, place } = stop;
  const { machine } = moves;
  if (kind === "over") {
    return machine.outcome === "ended" ? `The run has ended after superstep ${superstep}.` : `A mistake has stopped the run in superstep ${superstep}.`;
  }
  if (kind === "begin" && superstep === 0) {
    return `Superstep 0 begins: ${machine.nodes === 1 ? "the rank starts" : `all ${machine.nodes} ranks start`} the program.`;
  }
  if (kind === "begin") {
    return `Superstep ${superstep} begins. Landed at the end of superstep ${superstep - 1}: ${amounts(requests.arrows)}.`;
  }
  if (kind === "barrier") {
    return `Superstep ${superstep}: all ranks wait. Asked for, and not landed yet: ${amounts(requests.arrows)}.`;
  }
  if (kind === "line") {
    return `Superstep ${superstep}, line by line: rank ${stop.rank} has made ${counted(place.ticks[stop.rank], "instruction")}.`;
  }
  const line = call.place.line > 0 ? `line ${call.place.line}: ` : "";
  return `Superstep ${superstep}, rank ${call.rank}, ${line}${spelledCall(call, (address) => shortAddress(moves, call.rank, address))}`;
}

// An address by the name of what the stop shows there.
function shortAddress(moves, rank, address) {
  const look = moves.seen?.now.looks.find((it) => it.rank === rank);
  return look === undefined ? `0x${address.toString(16)}` : moves.stage.named(look, address).replace("→ ", "");
}

/** The requests as a list, for those who do not see arrows. */
function listed(requests) {
  const items = requests.arrows.slice(0, MOST_LISTED).map((it) => {
    const tag = it.tag === undefined ? "" : `, tag ${tagText(it.tag)}`;
    const line = it.call.place.line > 0 ? `, line ${it.call.place.line}` : "";
    const text = `${KINDS[it.kind]} by rank ${it.call.rank}: ${counted(it.bytes, "byte")} from rank ${it.from} to rank ${it.to}${tag}${line}`;
    return made("li", it.isWrong ? "wrong" : it.isNow ? "now" : "", it.isWrong ? `${text}: refused` : text);
  });
  const left = requests.arrows.length - items.length;
  return left > 0 ? [...items, made("li", "", `and ${grouped(left)} more`)] : items;
}

/** What is said of a run that did not end well: the machine's words, and those that a terminal had for the page's own settings. */
function mistakeTexts(moves, offender) {
  const { machine, program } = moves;
  const name = /(?:fault |refused: )(\w+)/.exec(machine.outcome)?.[1];
  const told = program.words?.outcome === machine.outcome ? program.words.lines : [];
  const own = [];
  if (offender !== undefined) {
    own.push(`The call: rank ${offender.rank}, ${offender.place.line > 0 ? `line ${offender.place.line}, ` : ""}${spelledCall(offender, (it) => shortAddress(moves, offender.rank, it))}`);
  }
  name in MEANINGS && own.push(`${name}: ${MEANINGS[name]}.`);
  return told.length > 0 ? told : own;
}
