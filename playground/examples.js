"use strict";
// The examples that the build puts into the page: for each a row `@ NAME TITLE`, or `@ NAME TITLE
// (screen)` where the screen is shown with it, and then its source. No source has such a row, since
// no line of one begins with `@`.
const {readExamples} = (() => {

function readExamples(text) {
  const found = [];
  for (const row of text.split("\n")) {
    const head = /^@ (\S+) (.*?)( \(screen\))?$/.exec(row);
    if (head) found.push({name: head[1], title: head[2], hasScreen: !!head[3], rows: []});
    else if (found.length) found.at(-1).rows.push(row);
  }
  return found.map(({rows, ...it}) => ({...it, text: rows.join("\n").replace(/\n+$/, "\n")}));
}

return {readExamples};
})();
if (typeof module !== "undefined") module.exports = {readExamples};
