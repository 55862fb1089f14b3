"use strict";
{
  const panel = document.getElementById("line");
  const html = document.documentElement;
  const MOST = 4096; // so many words of an object are marked
  let at = null;

  const made = (name, text, ...parts) => {
    const it = document.createElement(name);
    it.textContent = text;
    it.append(...parts);
    return it;
  };

  // Only one word takes part in the order of the tabulator key. The arrow keys go to the others.
  const quiet = (part) => part.querySelectorAll(".words a").forEach((it) => { it.tabIndex = -1; });

  // Folded words are in the page as compressed text. They become elements when they are unfolded.
  const unfold = async (fold) => {
    const packed = fold.querySelector("script");
    if (!packed) return;
    packed.remove();
    const bytes = Uint8Array.from(atob(packed.textContent), (it) => it.charCodeAt(0));
    const stream = new Blob([bytes]).stream().pipeThrough(new DecompressionStream("gzip"));
    fold.insertAdjacentHTML("beforeend", await new Response(stream).text());
    quiet(fold);
  };

  // The element of the word at a byte. A word that has no element of its own is in an element of several words.
  const found = (byte) => {
    for (let back = 0; back <= MOST; back += 8) {
      const it = document.getElementById("b" + (byte - back));
      if (it) return back === 0 || 8 * Number(it.dataset.n || 1) > back ? it : null;
    }
    return null;
  };

  const reached = async (byte) => {
    for (let fold = null; ;) {
      const it = found(byte);
      if (it) {
        for (let up = it.closest("details"); up; up = up.parentElement.closest("details")) up.open = true;
        return it;
      }
      const folds = [...document.querySelectorAll("details[data-first]")];
      fold = folds.find((one) => one.querySelector("script") && one.dataset.first <= byte && byte < one.dataset.after);
      if (!fold) return null;
      await unfold(fold);
      fold.open = true;
    }
  };

  const link = (byte, text) => {
    const it = made("a", text);
    it.href = "#b" + byte;
    return it;
  };

  const row = (list, name, ...parts) => {
    const what = document.createElement("dd");
    what.append(...parts);
    list.append(made("dt", name), what);
  };

  const ranges = (it) => (it.dataset.to || "").split(" ").filter(Boolean).map((one) => one.split("+").map(Number));

  const path = (way, cells) => {
    const steps = way === "root" ? [] : way.split(".");
    const parts = [];
    for (let i = 0; i <= steps.length; i++) {
      const name = i ? steps[i - 1] : "root";
      const known = cells[cells.length - 1 - steps.length + i];
      parts.push(i ? " \u203a " : "", known && known !== "-" ? link(known, name) : name);
    }
    return parts;
  };

  const show = (it) => {
    const line = it.closest("[data-k]");
    const list = document.createElement("dl");
    const byte = Number(it.id.slice(1));
    const code = it.querySelector("code");
    row(list, "Bytes", code ? code.textContent : "not given to the page");
    row(list, "Text", line.dataset.t);
    if (line.dataset.w) row(list, "Path", ...path(line.dataset.w, (line.dataset.p || "").split(" ")));
    const to = ranges(it);
    if (to.length) {
      row(list, "Leads to", ...to.flatMap(([first, count], i) =>
        [i ? ", then " : "", link(first, `byte ${first}`), count === 1 ? " (1 word)" : ` (${count} words)`]));
    }
    const from = (line.dataset.f || "").split(" ").filter(Boolean);
    if (from.length) row(list, "Reached from", ...from.flatMap((one, i) => [i ? ", " : "", link(one, `byte ${one}`)]));
    row(list, "Line", `byte ${line.dataset.o}, ${line.dataset.c}, read ${line.dataset.r}`);
    const place = it.querySelector("s");
    const what = [line.dataset.k, it.classList.contains("hid") && "hidden", it.classList.contains("lap") && "overlap"];
    panel.replaceChildren(made("h2", `Byte ${byte}${place ? `, word ${place.textContent}` : ""}: `
      + what.filter(Boolean).join(", ")), list);
  };

  const select = async (byte, scroll = true) => {
    const it = await reached(byte);
    if (!it) return;
    for (const one of document.querySelectorAll(".at, .to")) one.classList.remove("at", "to");
    if (at) at.tabIndex = -1;
    at = it;
    it.classList.add("at");
    it.tabIndex = 0;
    if (scroll) it.scrollIntoView({ block: "nearest" });
    it.focus({ preventScroll: true });
    for (const [first, count] of ranges(it)) {
      await reached(first);
      for (let i = 0; i < Math.min(count, MOST); i++) document.getElementById("b" + (first + 8 * i))?.classList.add("to");
    }
    show(it);
    html.dataset.at = it.id;
  };

  const byteOf = (hash) => (/^#b\d+$/.test(hash) ? Number(hash.slice(2)) : null);

  // A click on a word marks the word and the object that it leads to. A second click on a pointer goes to its object.
  document.addEventListener("click", (event) => {
    const word = event.target.closest(".words a, .words i");
    if (word && word !== at) {
      event.preventDefault();
      history.pushState(null, "", "#" + word.id);
      select(Number(word.id.slice(1)), false);
    }
    const button = event.target.closest("button[data-hidden]");
    if (button) next(button.dataset.hidden.split(" ").map(Number));
  });

  const next = (places) => {
    const now = at ? Number(at.id.slice(1)) : -1;
    location.hash = "b" + (places.find((one) => one > now) ?? places[0]);
  };

  // The arrow keys move the mark. Return goes to the object that a pointer leads to.
  document.addEventListener("keydown", (event) => {
    if (!at || !event.target.closest(".words") || event.ctrlKey || event.altKey || event.metaKey) return;
    const all = [...document.querySelectorAll(".words a, .words i")].filter((one) => one.offsetParent);
    const here = all.indexOf(at), box = at.getBoundingClientRect();
    const level = (one) => one && Math.abs(one.getBoundingClientRect().left - box.left) < 4;
    const turn = { ArrowRight: 1, ArrowLeft: -1, ArrowDown: 1, ArrowUp: -1 }[event.key];
    if (!turn) return;
    event.preventDefault();
    let to = here + turn;
    if (event.key === "ArrowDown" || event.key === "ArrowUp") while (all[to] && !level(all[to])) to += turn;
    if (all[to]) {
      history.replaceState(null, "", "#" + all[to].id);
      select(Number(all[to].id.slice(1)));
    }
  });

  document.addEventListener("toggle", (event) => event.target.open && unfold(event.target), true);
  const follow = () => {
    const byte = byteOf(location.hash);
    if (byte !== null) select(byte);
  };
  addEventListener("hashchange", follow);
  addEventListener("popstate", follow);
  quiet(document);
  const first = document.querySelector(".words a, .words i");
  if (first) first.tabIndex = 0;
  html.dataset.ready = "yes";
  follow();
}
