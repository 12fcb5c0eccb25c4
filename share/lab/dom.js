/* Helpers for the document. */

export const $ = (id) => document.getElementById(id);

const SVG = new Set(["svg", "g", "path", "circle", "rect", "text", "title", "line"]);

/* Makes an element. An attribute `onNAME` is a listener, true stands for an empty attribute, and false or null for none. */
export function make(name, attributes = {}, ...children) {
  const made = SVG.has(name) ? document.createElementNS("http://www.w3.org/2000/svg", name) : document.createElement(name);
  for (const [key, value] of Object.entries(attributes)) {
    if (key.startsWith("on")) made.addEventListener(key.slice(2), value);
    else if (value !== false && value !== null) made.setAttribute(key, value === true ? "" : value);
  }
  made.append(...children.filter((child) => child !== null));
  return made;
}

/* Returns a function that acts once no further call has followed for `wait` milliseconds. */
export function later(wait, act) {
  let timer = 0;
  return (...words) => {
    clearTimeout(timer);
    timer = setTimeout(act, wait, ...words);
  };
}

/* Replaces the children of an element. An element that had the focus keeps it, if there is one with the same data-key again. */
export function refill(element, ...children) {
  const key = element.contains(document.activeElement) ? document.activeElement.dataset.key : undefined;
  element.replaceChildren(...children.filter((child) => child !== null));
  if (key) element.querySelector(`[data-key="${CSS.escape(key)}"]`)?.focus({ preventScroll: true });
}

/* Makes a group one stop of the Tab key. The arrows up and down, Home and End move between its elements. */
export function rove(group, selector) {
  const all = [...group.querySelectorAll(selector)];
  const first = all.find((one) => one === document.activeElement) ?? all[0];
  for (const one of all) one.setAttribute("tabindex", one === first ? 0 : -1);
  group.addEventListener("keydown", (event) => {
    const at = all.indexOf(event.target.closest(selector));
    const to = { ArrowDown: at + 1, ArrowUp: at - 1, Home: 0, End: all.length - 1 }[event.key];
    if (at < 0 || to === undefined || !all[to]) return;
    event.preventDefault();
    event.stopPropagation();
    all[at].setAttribute("tabindex", -1);
    all[to].setAttribute("tabindex", 0);
    all[to].focus();
  });
}

/* Offers a text as a file. */
export function download(name, type, text) {
  const address = URL.createObjectURL(new Blob([text], { type }));
  make("a", { href: address, download: name }).click();
  setTimeout(() => URL.revokeObjectURL(address), 10000);
}
