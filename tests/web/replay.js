// Makes the same calls as the program was started for, in node or in a browser, and tells what is answered otherwise.

const decoded = (text) => Uint8Array.from(atob(text), (it) => it.charCodeAt(0));
const same = (a, b) => a.length === b.length && a.every((it, k) => it === b[k]);
const shown = (bytes) => JSON.stringify(new TextDecoder().decode(bytes.subarray(0, 300)));

function joined(pieces) {
  const all = new Uint8Array(pieces.reduce((sum, it) => sum + it.length, 0));
  let at = 0;
  for (const piece of pieces) {
    all.set(piece, at);
    at += piece.length;
  }
  return all;
}

/** What a record asks for, as the interface wants it. */
export function settingsOf(record) {
  const settings = { ...record.settings, image: decoded(record.image), input: decoded(record.input) };
  return { hostMemory: 2048, ...settings };
}

// What a call answers: all that it wrote, what it wrote beside that, the text of a refusal, and the status.
async function answerOf(bspemu, record, failRequest = 0) {
  const settings = { ...settingsOf(record), failRequest };
  try {
    if (record.call === "assemble") {
      return { out: bspemu.assemble(settings.image, settings), beside: "", text: "", status: 0 };
    }
    if (record.call === "list") {
      return { out: new TextEncoder().encode(bspemu.list(settings.image, settings)), beside: "", text: "", status: 0 };
    }
    const answer = bspemu.runHere(settings);
    const out = joined([answer.output, new TextEncoder().encode(answer.report)]);
    return { out, beside: answer.profile ?? answer.counts ?? "", text: "", status: answer.status };
  } catch (error) {
    if (error.name !== "Refused") {
      throw error;
    }
    return { out: error.output, beside: "", text: error.message, status: error.status };
  }
}

// What is wrong with an answer, or nothing.
function faultOf(record, answer) {
  if (answer.status !== record.status || answer.text !== record.text) {
    return `status ${answer.status} ${answer.text}, and not ${record.status} ${record.text}`;
  }
  if (!same(answer.out, decoded(record.out))) {
    return `${shown(answer.out)}, and not ${shown(decoded(record.out))}`;
  }
  return answer.beside === record.beside ? "" : "another profile, or other counts";
}

/** The calls that run something, list or assemble. */
export async function replay(bspemu, records) {
  const faults = [];
  for (const record of records) {
    const fault = faultOf(record, await answerOf(bspemu, record));
    if (fault !== "") {
      faults.push(`${record.line}: ${fault}`);
    }
  }
  return faults;
}

// The replies of a framed session, one for each line that has one.
function repliesOf(bytes) {
  const replies = [];
  for (let at = 0; at < bytes.length; ) {
    let end = bytes.indexOf(10, at);
    const lines = Number(new TextDecoder().decode(bytes.subarray(at, end)).split(" ")[1]);
    for (let k = 0; k < lines; k++) {
      end = bytes.indexOf(10, end + 1);
    }
    replies.push(bytes.subarray(at, end + 1));
    at = end + 1;
  }
  return replies;
}

// A session of the debugger, reply by reply: how many there were, how it was refused, and what is wrong.
async function conversation(bspemu, record, failRequest = 0) {
  let session;
  let count = 0;
  try {
    session = await bspemu.debug({ ...settingsOf(record), failRequest });
    for (const [k, reply] of repliesOf(decoded(record.out)).entries()) {
      const answer = await session.ask(record.lines[k]);
      const text = joined([new TextEncoder().encode(`${answer.header}\n`), answer.bytes]);
      count += 1;
      if (!same(text, reply)) {
        return { count, fault: `${record.lines[k]}: ${shown(text)}, and not ${shown(reply)}` };
      }
    }
    return { count };
  } catch (error) {
    return error.name === "Refused" ? { count, refused: error } : { count, fault: String(error) };
  } finally {
    session?.end();
  }
}

/** Sessions of the debugger, reply by reply. */
export async function talk(bspemu, records) {
  const faults = [];
  let count = 0;
  for (const record of records) {
    const heard = await conversation(bspemu, record);
    count += heard.count;
    const told = heard.refused?.message ?? "";
    const isOther = told !== record.text || (told !== "" && heard.refused.status !== record.status);
    if (heard.fault !== undefined || isOther) {
      faults.push(`${record.line}: ${heard.fault ?? `${told}, and not ${record.status} ${record.text}`}`);
    }
  }
  return { faults, count };
}

// What a call, or a session, comes to if a request for memory is refused: `refused`, or else a fault or nothing.
async function starved(bspemu, record, request) {
  if (record.call === "debug") {
    const { refused, fault } = await conversation(bspemu, record, request);
    const isRefused = refused !== undefined && refused.message === "no memory" && refused.status === 5;
    return { isRefused, fault: fault ?? (refused === undefined || isRefused ? "" : String(refused)) };
  }
  const answer = await answerOf(bspemu, record, request);
  const isRefused = answer.text === "no memory" && answer.status === 5;
  return { isRefused, fault: isRefused ? "" : faultOf(record, answer) };
}

// A request that only makes a block smaller may be refused, and changes nothing. So many in a row, and there were no more requests.
const MOST_UNCHANGED = 8;

/** Each request for memory of a run or of a session is refused in turn: the refusal is said, or the answer is the whole one. What a session
 * answered before is right. */
export async function starve(bspemu, record, most) {
  const faults = [];
  let refused = 0;
  let unchanged = 0;
  for (let request = 1; request <= most && unchanged < MOST_UNCHANGED; request++) {
    const { isRefused, fault } = await starved(bspemu, record, request);
    if (fault !== "") {
      faults.push(`request ${request}: ${fault}`);
    }
    refused += isRefused ? 1 : 0;
    unchanged = isRefused ? 0 : unchanged + 1;
  }
  return { faults, refused };
}
