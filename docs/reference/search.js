"use strict";
// What a search finds in the entries of data.js. An entry is a name, what it is of, its kind, its link, a line on it, and its other names.

const NOISE = new Set("a an and by do does for from how i in is it of on or over the to with without what where".split(" "));

// How well a name matches what is wanted: the less the better, or null if it does not.
function rankName(name, wanted, words) {
  const low = name.toLowerCase();
  if (low === wanted.toLowerCase()) return 1;
  if (words.length > 1) return null;
  if (low.startsWith(words[0])) return 2;
  if (low.split(/[_\W]+/).includes(words[0])) return 3;
  return low.includes(words[0]) ? 4 : null;
}

// The same of an entry: by its name, its other names, its path, and all that it says.
function rank([name, of, , , summary, also = []], wanted) {
  if (name === wanted) return 0;
  const words = wanted.toLowerCase().split(/\s+/);
  const path = `${of}::${name}`.toLowerCase();
  const good = [name, ...also].map((it) => rankName(it, wanted, words)).filter((it) => it !== null);
  if (words.length === 1 && words[0].includes("::") && path.endsWith(words[0])) good.push(1);
  if (words.length === 1 && path.includes(words[0])) good.push(5);
  const all = `${path} ${also.join(" ")} ${summary}`.toLowerCase();
  if (words.every((it) => all.includes(it))) good.push(6);
  return good.length ? Math.min(...good) : null;
}

// A word without its ending, so that `iterating` finds `iterator`.
function stem(word) {
  const short = word.replace(/(?:ing|ions?|ors?|ers?|es|ed|s|e)$/, "");
  return short.length > 3 ? short : word;
}

// How well each entry has each of the words: as a name, as a part of one, or in its line. A word counts more the fewer entries have it.
function scores(entries, words) {
  const parts = (text) => text.toLowerCase().split(/[_\W]+/);
  const has = (list, word) => list.some((it) => it.startsWith(word) && (word.length > 2 || it === word));
  const sums = entries.map(() => 0);
  for (const word of words) {
    const found = entries.map(([name, , kind, , summary, also = []]) => {
      const names = [name, ...also].map((it) => it.toLowerCase());
      if (names.some((it) => it === word || stem(it) === word)) return kind === "see" ? 4 : 3;
      return has(names.flatMap(parts), word) ? 2 : has(parts(summary), word) ? 1 : 0;
    });
    const worth = Math.log(entries.length / (1 + found.filter((it) => it).length));
    found.forEach((it, at) => (sums[at] += it * worth));
  }
  return sums;
}

// A call as its path alone: `v.push(x)` is `push`, and `Vec::<T>::new()` is `Vec::new`.
function bare(wanted) {
  return wanted.replace(/(?:::)?<.*>|\(.*$/g, "").replace(/^[a-z]\w*\./, "").trim() || wanted;
}

// The entry by the one of its names that is wanted.
function named([name, of, kind, href, summary, also = []], wanted) {
  return [also.find((it) => it.toLowerCase() === wanted.toLowerCase()) || name, of, kind, href, summary];
}

// The entries that match, the best first, and whether they have all that is wanted, or only some of its words.
function search(entries, wanted) {
  const best = (ranked) => {
    const those = ranked.map((good, at) => [good, at]).filter(([good]) => good !== null);
    return those.sort((a, b) => a[0] - b[0] || a[1] - b[1]).map(([, at]) => named(entries[at], wanted));
  };
  for (const form of new Set([wanted, bare(wanted)])) {
    const found = best(entries.map((it) => rank(it, form)));
    if (found.length) return { found, whole: true };
  }
  const words = wanted.toLowerCase().split(/[_\W]+/).filter((it) => it.length > 1 && !NOISE.has(it)).map(stem);
  return { found: best(scores(entries, words).map((it) => -it || null)), whole: false };
}
