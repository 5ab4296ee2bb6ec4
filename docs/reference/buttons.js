"use strict";
// The buttons of a page: each piece of code can be copied, and all that is folded can be opened at once.

function button(text, label, press) {
  const made = document.createElement("button");
  made.type = "button";
  made.textContent = text;
  if (label) made.setAttribute("aria-label", label);
  made.addEventListener("click", press);
  return made;
}

function setUpCopies() {
  for (const piece of document.querySelectorAll("main pre:not(.source)")) {
    const copy = button("Copy", "Copy this code", async () => {
      await navigator.clipboard.writeText(piece.querySelector("code").textContent);
      copy.textContent = "Copied";
      setTimeout(() => (copy.textContent = "Copy"), 1500);
    });
    copy.className = "copy";
    piece.append(copy);
  }
}

function setUpFolds() {
  const folds = [...document.querySelectorAll("main details")];
  const title = document.querySelector("main h1");
  if (folds.length < 3 || !title) return;
  const all = button("Open all", "", () => {
    const open = all.textContent === "Open all";
    folds.forEach((it) => (it.open = open));
    all.textContent = open ? "Close all" : "Open all";
  });
  all.className = "folds";
  title.after(all);
}

setUpCopies();
setUpFolds();
