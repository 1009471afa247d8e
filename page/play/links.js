// A link that has the texts and the bounds in itself: behind # stands what deflate made of them, in letters that an
// address may have.

const LINK_PARTS = 6;             // class text, program, schedule, menu, bounds, and what is shown
const MOST_OF_LINK = 2_000_000;   // bytes; no text of the program may be as long

async function packed(parts) {
  const text = new TextEncoder().encode(parts.join("\n" + BETWEEN));
  const bytes = await piped(text, new CompressionStream("deflate-raw"));
  const letters = btoa(Array.from(bytes, it => String.fromCharCode(it)).join(""));
  return "#z" + letters.replace(/\+/g, "-").replace(/\//g, "_").replace(/=+$/, "");
}
// The parts that an address has, or null if it is no such link. A link that is broken throws.
async function partsOf(address) {
  if (!address.startsWith("#z")) return null;
  const letters = atob(address.slice(2).replace(/-/g, "+").replace(/_/g, "/"));
  const bytes = Uint8Array.from(letters, it => it.charCodeAt(0));
  const text = await piped(bytes, new DecompressionStream("deflate-raw"), MOST_OF_LINK);
  const parts = new TextDecoder("utf-8", { fatal: true, ignoreBOM: true }).decode(text).split("\n" + BETWEEN);
  if (parts.length !== LINK_PARTS) throw new Error("it has another number of texts");
  return parts;
}
