"use strict";
// The byte that a key puts where programs with a screen find it.
const {keyByte} = (() => {

const ARROWS = {ArrowUp: "w", ArrowLeft: "a", ArrowDown: "s", ArrowRight: "d", Enter: "\r"};

// The byte that a key puts at $FF, or -1. Arrows are w, a, s and d.
function keyByte(key) {
  const text = ARROWS[key] || key;
  return text.length == 1 && text.charCodeAt(0) < 128 ? text.charCodeAt(0) : -1;
}

return {keyByte};
})();
if (typeof module !== "undefined") module.exports = {keyByte};
