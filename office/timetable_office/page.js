"use strict";
// The filter: shows the lessons (in an outline the lines) in which, or above which, every typed word occurs.
(() => {
  const form = document.getElementById("filter");
  const box = document.getElementById("wanted");
  const found = document.getElementById("found");
  const main = document.querySelector("main");
  const outline = document.body.classList.contains("outline");

  // the parts of the page that hold items, and each item with its words and those of the parts around it
  const parts = [...main.querySelectorAll(outline ? "li.fold" : "section")];
  const names = new Map(parts.map((part) => [part, part.querySelector("h2, h3, summary").textContent]));
  const items = [...main.querySelectorAll(outline ? "li:not(.fold)" : ".lessons > li")]
    .map((item) => {
      const words = [item.textContent];
      for (let part = item.parentElement; part !== main; part = part.parentElement) words.push(names.get(part) || "");
      return { item, text: words.join(" ").toLowerCase() };
    });

  const show = () => {
    const wanted = box.value.toLowerCase().split(/\s+/).filter(Boolean);
    const kept = new Set();
    let count = 0;
    for (const { item, text } of items) {
      item.hidden = !wanted.every((word) => text.includes(word));
      if (item.hidden) continue;
      count += 1;
      for (let part = item.parentElement; part !== main; part = part.parentElement) kept.add(part);
    }
    for (const part of parts) {
      part.hidden = wanted.length > 0 && !kept.has(part);
      if (outline && wanted.length > 0) part.firstElementChild.open = true;
    }
    const of = `${count.toLocaleString("en")} of ${items.length.toLocaleString("en")}`;
    found.textContent = wanted.length > 0 ? `${box.value.trim()}: ${of} ${form.dataset.words}` : "";
  };
  // a link may end with #show=10B+mon
  const follow = () => {
    const given = new URLSearchParams(location.hash.slice(1)).get("show");
    if (given === null) return;
    box.value = given;
    show();
  };

  box.addEventListener("input", show);
  form.addEventListener("submit", (event) => event.preventDefault());
  addEventListener("hashchange", follow);
  form.hidden = false;
  follow();
})();
