// The state of the page in its address: packed by deflate, in the letters of base64 that an address may have.

const LONGEST = 60_000;

async function through(stream, bytes) {
  const done = new Blob([bytes]).stream().pipeThrough(stream);
  return new Uint8Array(await new Response(done).arrayBuffer());
}

/** The part of the address behind its `#`, or nothing where it would be too long to be a link. */
export async function packed(state) {
  const bytes = await through(new CompressionStream("deflate-raw"), new TextEncoder().encode(JSON.stringify(state)));
  let letters = "";
  for (let at = 0; at < bytes.length; at += 8192) letters += String.fromCharCode(...bytes.subarray(at, at + 8192));
  const text = btoa(letters).replaceAll("+", "-").replaceAll("/", "_").replace(/=+$/, "");
  return text.length > LONGEST ? null : `s=${text}`;
}

/** The state of an address, or nothing where it has none that can be read. */
export async function unpackedState(hash) {
  const found = /^#?s=([\w-]+)$/.exec(hash);
  if (!found) return null;
  try {
    const letters = atob(found[1].replaceAll("-", "+").replaceAll("_", "/"));
    const bytes = await through(new DecompressionStream("deflate-raw"), Uint8Array.from(letters, (letter) => letter.charCodeAt(0)));
    const state = JSON.parse(new TextDecoder().decode(bytes));
    const isText = (key) => state[key] === undefined || typeof state[key] === "string";
    return state && ["scenario", "script", "test", "name"].every(isText) ? state : null;
  } catch {
    return null;
  }
}
