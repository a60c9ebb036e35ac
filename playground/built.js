"use strict";
// What the build has put into the page: texts in its elements, and the engine's module.
const {part, unescaped, moduleBytes, toBase64} = (() => {

const part = id => $(id).textContent;

function unescaped(text) {
  const plain = text.replace(/%(..)/g, (_, digits) => String.fromCharCode(parseInt(digits, 16)));
  return new TextDecoder().decode(Uint8Array.from(plain, c => c.charCodeAt(0)));
}

function moduleBytes() {
  const text = part("module").replace(/\s/g, "");
  if (Uint8Array.fromBase64) return Uint8Array.fromBase64(text);
  return Uint8Array.from(atob(text), c => c.charCodeAt(0));
}

function toBase64(bytes) {
  if (bytes.toBase64) return bytes.toBase64();
  let text = "";
  for (let at = 0; at < bytes.length; at += 8190) {
    text += String.fromCharCode(...bytes.subarray(at, at + 8190));
  }
  return btoa(text);
}

return {part, unescaped, moduleBytes, toBase64};
})();
if (typeof module !== "undefined") module.exports = {part, unescaped, moduleBytes, toBase64};
