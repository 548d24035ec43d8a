// What is embedded in the page, and what a link holds.

// How many bytes a link holds at most, of a program and its input. Browsers have addresses of 2 MB.
const MOST_LINKED = 1 << 23;

const $ = (id) => document.getElementById(id);

function bytesOf(text) {
  const letters = atob(text);
  const bytes = new Uint8Array(letters.length);
  for (let k = 0; k < letters.length; k++) {
    bytes[k] = letters.charCodeAt(k);
  }
  return bytes;
}

const textOf = (bytes) => btoa(Array.from(bytes, (it) => String.fromCharCode(it)).join(""));

async function through(stream, bytes) {
  return new Uint8Array(await new Response(new Blob([bytes]).stream().pipeThrough(stream)).arrayBuffer());
}

const unpacked = (id) => through(new DecompressionStream("gzip"), bytesOf($(id).textContent));
const decoded = async (id) => new TextDecoder().decode(await unpacked(id));

// What deflate has packed. A few bytes may stand for very many: no more are unpacked than asked for.
async function unpackedUpTo(most, bytes) {
  const pieces = [];
  let left = most;
  const reader = new Blob([bytes]).stream().pipeThrough(new DecompressionStream("deflate-raw")).getReader();
  for (let it = await reader.read(); !it.done; it = await reader.read()) {
    left -= it.value.length;
    if (left < 0) {
      await reader.cancel();
      throw new Error(`the link has more than ${most} bytes`);
    }
    pieces.push(it.value);
  }
  return new Uint8Array(await new Blob(pieces).arrayBuffer());
}

// A value of JSON as a part of an address, and back.
async function toLink(value) {
  const packed = await through(new CompressionStream("deflate-raw"), new TextEncoder().encode(JSON.stringify(value)));
  return textOf(packed).replaceAll("+", "-").replaceAll("/", "_").replace(/=+$/, "");
}

async function fromLink(code) {
  const packed = bytesOf(code.replaceAll("-", "+").replaceAll("_", "/"));
  return JSON.parse(new TextDecoder().decode(await unpackedUpTo(MOST_LINKED, packed)));
}
