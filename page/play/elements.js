// Elements of the page, and what is packed in it.

const byId = id => document.getElementById(id);

// An element with properties and children.
function element(name, properties, ...children) {
  const made = document.createElement(name);
  for (const property in properties) made.setAttribute(property, properties[property]);
  made.append(...children);
  return made;
}
// What bytes become through a stream; more than so many bytes are refused.
async function piped(bytes, through, most = Infinity) {
  const parts = [], reader = new Blob([bytes]).stream().pipeThrough(through).getReader();
  let count = 0;
  for (;;) {
    const { done, value } = await reader.read();
    if (done) return new Blob(parts).arrayBuffer().then(it => new Uint8Array(it));
    count += value.length;
    if (count > most) throw new Error("too long");
    parts.push(value);
  }
}
// What stands in this file as base64 of what gzip made, as bytes.
function unpacked(id) {
  const bytes = Uint8Array.from(atob(byId(id).textContent.trim()), it => it.charCodeAt(0));
  return piped(bytes, new DecompressionStream("gzip"));
}
const unpackedText = async id => new TextDecoder().decode(await unpacked(id));
// Hands the reader a text as a file.
function saveAs(name, text, type) {
  const address = URL.createObjectURL(new Blob([text], { type }));
  element("a", { href: address, download: name }).click();
  setTimeout(() => URL.revokeObjectURL(address), 10_000);
}
