// Bodies as bytes, a character each: how the member's JSON has them.
const encoder = new TextEncoder(), decoder = new TextDecoder("utf-8", { ignoreBOM: true }), strict = new TextDecoder("utf-8", { ignoreBOM: true, fatal: true });
export const bytesOf = text => encoder.encode(text).length;

function bytesIn(latin) {
  const bytes = new Uint8Array(latin.length);
  for (let i = 0; i < latin.length; i++) bytes[i] = latin.charCodeAt(i);
  return bytes;
}

// The text of bytes; what is no UTF-8 is replaced by U+FFFD.
export const textOf = latin => /^[\x00-\x7f]*$/.test(latin) ? latin : decoder.decode(bytesIn(latin));
// The same, or null where something is no UTF-8.
export function utf8In(latin) {
  if (/^[\x00-\x7f]*$/.test(latin)) return latin;
  try { return strict.decode(bytesIn(latin)); } catch (e) { return null; }
}
export const latinOf = text => Array.from(encoder.encode(text), byte => String.fromCharCode(byte)).join("");

// The check of a list with one body more: FNV-1a over all bytes, with a line end behind each body.
export const NO_BODIES = 0x811c9dc5;
export function checked(check, latin) {
  for (let i = 0; i < latin.length; i++) check = Math.imul(check ^ latin.charCodeAt(i), 0x01000193);
  return Math.imul(check ^ 10, 0x01000193) >>> 0;
}
