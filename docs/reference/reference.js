"use strict";
// The search box (search.js says what it finds), the notes that words show, and the contents on a narrow screen. All that it reads is
// in data.js; it requests nothing from elsewhere.

const root = document.body.dataset.root;
const MOST = 40;

function setUpSearch() {
  const box = document.getElementById("search");
  const list = document.getElementById("found");
  let chosen = -1;

  function options() {
    return [...list.querySelectorAll('[role="option"]')];
  }

  function choose(at) {
    const all = options();
    chosen = all.length ? (at + all.length) % all.length : -1;
    all.forEach((it, i) => it.setAttribute("aria-selected", String(i === chosen)));
    if (chosen >= 0) {
      box.setAttribute("aria-activedescendant", all[chosen].id);
      all[chosen].scrollIntoView({ block: "nearest" });
    } else {
      box.removeAttribute("aria-activedescendant");
    }
  }

  function close() {
    list.hidden = true;
    box.setAttribute("aria-expanded", "false");
    box.removeAttribute("aria-activedescendant");
    chosen = -1;
  }

  function option([name, of, kind, href, summary], at) {
    const line = document.createElement("li");
    line.id = `found-${at}`;
    line.setAttribute("role", "option");
    const link = document.createElement("a");
    link.href = root + href;
    link.tabIndex = -1;
    const place = document.createElement("span");
    place.className = "of";
    place.textContent = of ? `${kind} of ${of}` : kind;
    const code = document.createElement("code");
    code.textContent = name;
    const more = document.createElement("small");
    more.textContent = summary;
    link.append(place, code, more);
    line.append(link);
    return line;
  }

  function look() {
    const wanted = box.value.trim();
    if (!wanted) return close();
    const { found, whole } = search(ITEMS, wanted);
    list.replaceChildren(...found.slice(0, MOST).map(option));
    if (!whole) {
      const none = document.createElement("li");
      none.className = "none";
      none.textContent = found.length ? "Nothing has all of these words. These have some:" : "Nothing has these words.";
      list.prepend(none);
    }
    list.hidden = false;
    box.setAttribute("aria-expanded", "true");
    choose(found.length ? 0 : -1);
  }

  box.addEventListener("input", look);
  box.addEventListener("focus", () => box.value && look());
  box.addEventListener("keydown", (event) => {
    if (event.key === "ArrowDown" || event.key === "ArrowUp") {
      event.preventDefault();
      if (list.hidden) look();
      else choose(chosen + (event.key === "ArrowDown" ? 1 : -1));
    } else if (event.key === "Enter" && chosen >= 0) {
      event.preventDefault();
      const link = options()[chosen].querySelector("a");
      close();
      box.blur();
      link.click();
    } else if (event.key === "Escape") {
      if (list.hidden) box.value = "";
      close();
    }
  });
  document.addEventListener("click", (event) => event.target.closest(".search") || close());
  list.addEventListener("click", close);
  document.addEventListener("keydown", (event) => {
    const typing = event.target.closest("input, textarea");
    if ((event.key === "/" || event.key === "s") && !typing && !event.ctrlKey && !event.metaKey && !event.altKey) {
      event.preventDefault();
      box.focus();
      box.select();
    }
  });
}

function setUpNotes() {
  const note = document.getElementById("note");
  let of = null;
  let leaving = 0;
  let touched = null;

  function hide() {
    note.hidden = true;
    if (of) of.removeAttribute("aria-describedby");
    of = null;
  }

  function show(link) {
    const target = new URL(link.href);
    const entry = WORDS[decodeURI(target.pathname.split("/").pop() + target.hash)] || WORDS[link.getAttribute("href").replace(root, "")];
    if (!entry) return;
    clearTimeout(leaving);
    hide();
    of = link;
    const [name, comment, text] = entry;
    const line = document.createElement("p");
    const code = document.createElement("code");
    code.textContent = name;
    line.append(code, comment ? `: ${comment}` : "");
    note.replaceChildren(line);
    if (text) {
      const piece = document.createElement("pre");
      piece.textContent = text;
      note.append(piece);
    }
    note.hidden = false;
    link.setAttribute("aria-describedby", "note");
    const at = link.getClientRects()[0];
    const left = Math.min(at.left, document.documentElement.clientWidth - note.offsetWidth - 8);
    const below = at.bottom + note.offsetHeight + 8 < window.innerHeight || at.top < note.offsetHeight + 60;
    note.style.left = `${Math.max(4, left) + window.scrollX}px`;
    note.style.top = `${(below ? at.bottom + 4 : at.top - note.offsetHeight - 4) + window.scrollY}px`;
  }

  const leave = () => {
    clearTimeout(leaving);
    leaving = setTimeout(hide, 250);
  };
  document.addEventListener("mouseover", (event) => {
    const link = event.target.closest("a.w");
    if (link && link !== of) show(link);
    else if (link || event.target.closest("#note")) clearTimeout(leaving);
    else if (of && of !== document.activeElement) leave();
  });
  // A first touch shows the note, and a second one follows the link.
  document.addEventListener("click", (event) => {
    const link = event.target.closest("a.w");
    if (!link || event.pointerType !== "touch") return;
    if (link !== touched) event.preventDefault();
    touched = link;
    if (link !== of) show(link);
  });
  document.addEventListener("focusin", (event) => {
    const link = event.target.closest("a.w");
    if (link) show(link);
    else if (of) hide();
  });
  document.addEventListener("keydown", (event) => event.key === "Escape" && hide());
}

function setUpContents() {
  const nav = document.getElementById("contents");
  const menu = document.querySelector("header .menu");
  menu.addEventListener("click", (event) => {
    event.preventDefault();
    const open = nav.classList.toggle("open");
    menu.textContent = open ? "Close" : "Contents";
    if (open) nav.querySelector("a").focus({ preventScroll: true });
  });
  document.addEventListener("keydown", (event) => event.key === "Escape" && nav.classList.contains("open") && menu.click());
}

setUpSearch();
setUpNotes();
setUpContents();
