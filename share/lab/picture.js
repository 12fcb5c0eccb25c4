/* Shows the rounds of a campaign: as a space-time diagram, as a list if there is not enough room, or as a grid. */
import { all, isTraitor } from "./campaign.js";
import { aloud, brief, grouped, kind } from "./chronicle.js";
import { make, rove } from "./dom.js";

/* Sizes of the diagram in pixels, for letters of 16 pixels. A value is as wide as there is room, up to the width that a finger
   needs, and what can be touched is as high. */
const LEAST_PITCH = 30;
const FINGER = 44;
const LETTER = 9;
const LINE = 18;
const GAP = 10;
const RIM = 14; // the height of a value besides its lines

/* The size of this page's letters, compared with the usual one. */
export const scale = () => parseFloat(getComputedStyle(document.documentElement).fontSize) / 16;

/* What a round needs to be drawn: its groups, its senders, and the width of a value. */
function plan(round) {
  const groups = grouped(round).map((messages) => ({ messages, texts: brief(messages) }));
  const widest = Math.max(1, ...groups.flatMap(({ texts }) => texts.map((text) => text.length)));
  const most = Math.max(1, ...groups.map(({ texts }) => texts.length));
  const senders = [...new Set(groups.map(({ messages }) => messages[0].from))].sort((one, other) => one - other);
  const pitch = Math.max(LEAST_PITCH, LETTER * widest + 10);
  const beside = Math.max(1, ...groups.map(({ messages }) => senders.filter((from) => from !== messages[0].to).length));
  return { groups, senders, pitch, beside, column: pitch * beside + GAP, tall: LINE * most + RIM };
}

/* Whether the diagram of a campaign fits into a width. */
export function fits(course, n, width) {
  return course.rounds.every((round) => plan(round).column * n * scale() <= width);
}

/* Whether a group is shown if only one general's messages are wanted (null: everybody's). */
const isShown = (chosen, { from, to }) => chosen === null || chosen === from || chosen === to;

/* A round's heading, the accesses to the board, and its messages by the diagram or the list. `on` has `message` and is called
   with the messages of a group; `lit` are the messages that are shown as an order's origin. */
export function round(course, campaign, at, view) {
  const heading = make("h3", {}, `Round ${at + 1}`);
  const draw = { diagram, list, grid }[view.kind];
  const picture = draw(course.rounds[at], campaign, at, view);
  return make("section", { class: "round", "aria-label": `Round ${at + 1}` }, heading, accesses(course.rounds[at]), picture);
}

function accesses({ accesses: found }) {
  if (!found.length) return null;
  const items = found.map((access) => make("li", {}, access_text(access)));
  return make("details", { class: "accesses" }, make("summary", {}, `The board is used by ${found.map(({ general }) => general).join(", ")}`), make("ol", {}, ...items));
}

function access_text({ general, request, slot, value, expected, new: fresh, count, answer }) {
  const does = {
    get: `reads word ${slot}`,
    swap: `sets word ${slot} to ${value}`,
    add: `adds ${value} to word ${slot}`,
    cas: `sets word ${slot} to ${fresh} if it is ${expected}`,
    copy: `copies ${count} words from word ${slot} on`,
  }[request] ?? request;
  return `General ${general} ${does}. ${answer.length === 1 ? `The word was ${answer[0]}.` : `The words were ${answer.join(", ")}.`}`;
}

const spoken = (at, messages) =>
  `Round ${at + 1}: general ${messages[0].from} sends general ${messages[0].to} ${aloud(messages)}${kind(messages) === "lie" ? ", a lie" : ""}`;

const key = (at, { from, to }) => `round ${at} ${from}>${to}`;

/* ---- the diagram */

function diagram(round, campaign, at, view) {
  const unit = scale();
  const { groups, senders, pitch: least, beside, tall } = plan(round);
  const column = view.width / campaign.n;
  const pitch = Math.max(least, Math.min(FINGER, (column / unit - GAP) / beside));
  const middle = (general) => column * (general + 0.5);
  const slope = (46 + 6 * campaign.n) * unit;
  const height = 8 * unit + slope + tall * unit + 10 * unit;
  const picture = make("svg", { viewBox: `0 0 ${view.width} ${height}`, width: view.width, height, role: "group", "aria-label": `Messages of round ${at + 1}` });
  const life = (general, y1, y2) => make("line", { class: "life", x1: middle(general), x2: middle(general), y1, y2 });
  for (const general of all(campaign)) picture.append(life(general, 0, 8 * unit + slope), life(general, height - 8 * unit, height));
  const strokes = groups.filter(({ messages }) => isShown(view.chosen, messages[0])).map(({ messages, texts }) => {
    const { from, to } = messages[0];
    const others = senders.filter((general) => general !== to);
    const x = middle(to) + (others.indexOf(from) - (others.length - 1) / 2) * pitch * unit;
    return stroke({ messages, texts, at, view, x1: middle(from), y1: 8 * unit, x2: x, y2: 8 * unit + slope, pitch, unit });
  });
  picture.append(...strokes);
  for (const general of senders) picture.append(make("circle", { class: "start", cx: middle(general), cy: 8 * unit, r: 4 * unit }));
  rove(picture, ".message");
  return picture;
}

function stroke({ messages, texts, at, view, x1, y1, x2, y2, pitch, unit }) {
  const lit = messages.some((message) => view.lit.includes(message)) ? "lit" : "";
  const label = spoken(at, messages);
  const box = { x: x2 - (pitch * unit) / 2 + 2, y: y2, width: pitch * unit - 4, height: (LINE * texts.length + RIM) * unit, rx: 4 * unit };
  const touched = { x: x2 - (pitch * unit) / 2, y: y2 - 12 * unit, width: pitch * unit, height: box.height + 16 * unit };
  const tip = `M${x2} ${y2}L${x2 - 4.5 * unit} ${y2 - 9 * unit}H${x2 + 4.5 * unit}z`;
  const act = () => view.onmessage(messages);
  const press = (event) => {
    if (event.key !== "Enter" && event.key !== " ") return;
    event.preventDefault();
    event.stopPropagation();
    act();
  };
  return make("g", { class: `message ${kind(messages)} ${lit}`, role: "button", tabindex: 0, "aria-label": label, "data-key": key(at, messages[0]), onclick: act, onkeydown: press },
    make("title", {}, label),
    make("path", { class: "way", d: `M${x1} ${y1}L${x2} ${y2 - 8 * unit}` }),
    make("rect", { class: "touched", ...touched }),
    make("path", { class: "tip", d: tip }),
    make("rect", { class: "pill", ...box }),
    ...texts.map((text, line) => make("text", { x: x2, y: y2 + (LINE * (line + 1) + 2) * unit }, text)));
}

/* ---- the list */

function list(round, campaign, at, view) {
  const groups = grouped(round).filter((messages) => isShown(view.chosen, messages[0]));
  const heard = all(campaign).filter((general) => groups.some(([{ to }]) => to === general) && (view.chosen === null || view.chosen === general));
  const rows = heard.map((general) => listRow(`General ${general} receives`, groups.filter(([{ to }]) => to === general), ({ from }) => `from ${from}`, at, view));
  if (view.chosen !== null) {
    const sent = groups.filter(([{ from }]) => from === view.chosen);
    if (sent.length) rows.push(listRow(`General ${view.chosen} sends`, sent, ({ to }) => `to ${to}`, at, view));
  }
  if (!rows.length) return nothing(view);
  const whole = make("div", { class: "list" }, ...rows);
  rove(whole, "button");
  return whole;
}

function listRow(title, groups, who, at, view) {
  const chips = groups.map((messages) => {
    const words = { ...described(messages, at, view), "data-key": `${title} ${key(at, messages[0])}` };
    return make("li", {}, make("button", { ...words, onclick: () => view.onmessage(messages) }, make("small", {}, who(messages[0])), ` ${brief(messages).join(" ")}`));
  });
  return make("div", { class: "receiver" }, make("h4", {}, title), make("ul", {}, ...chips));
}

const nothing = ({ chosen }) => make("p", { class: "hint" }, chosen === null ? "Nobody sends anything." : `General ${chosen} receives and sends nothing.`);

/* ---- the grid: a row for each sender, a column for each receiver */

function grid(round, campaign, at, view) {
  const groups = grouped(round).filter((messages) => isShown(view.chosen, messages[0]));
  if (!groups.length) return nothing(view);
  const senders = [...new Set(groups.map(([{ from }]) => from))];
  const head = make("tr", {}, make("td", {}), ...all(campaign).map((to) => make("th", { scope: "col" }, `to ${to}`)));
  const rows = senders.map((from) => make("tr", {}, make("th", { scope: "row" }, `from ${from}`), ...all(campaign).map((to) => cell(groups, from, to, at, view))));
  const table = make("table", {}, make("thead", {}, head), make("tbody", {}, ...rows));
  const whole = make("div", { class: "grid", tabindex: 0, role: "group", "aria-label": `Messages of round ${at + 1}` }, table);
  rove(whole, "button");
  return whole;
}

function cell(groups, from, to, at, view) {
  const messages = groups.find(([message]) => message.from === from && message.to === to);
  if (!messages) return make("td", {});
  const act = () => view.onmessage(messages);
  return make("td", {}, make("button", { ...described(messages, at, view), "data-key": `grid ${key(at, messages[0])}`, onclick: act }, brief(messages).join(" ")));
}

/* What a button for messages is: its type, its class, and how it is read aloud. */
function described(messages, at, view) {
  const lit = messages.some((message) => view.lit.includes(message)) ? "lit" : "";
  return { type: "button", class: `message ${kind(messages)} ${lit}`, "aria-label": spoken(at, messages) };
}

/* ---- the generals at the top, and the decisions at the bottom */

export function heads(campaign, view) {
  const made = all(campaign).map((general) => {
    const what = `${general === campaign.c ? "commander" : "lieutenant"}, ${isTraitor(campaign, general) ? "traitor" : "loyal"}`;
    const words = { type: "button", class: `head ${isTraitor(campaign, general) ? "traitor" : ""}`, "data-key": `general ${general}` };
    Object.assign(words, { "aria-label": `General ${general}, ${what}`, "aria-pressed": String(view.chosen === general), onclick: () => view.ongeneral(general) });
    const below = isTraitor(campaign, general) ? "traitor" : general === campaign.c ? "commander" : "";
    return make("button", words, make("b", {}, `${general}${general === campaign.c ? "★" : ""}`), make("small", {}, below));
  });
  if (view.chosen !== null && view.kind !== "diagram") made.push(make("button", { type: "button", class: "everybody", "data-key": "everybody", onclick: () => view.ongeneral(view.chosen) }, "All"));
  const group = make("div", { class: `heads ${view.kind === "diagram" ? "columns" : ""}`, role: "group", "aria-label": "Generals: choose one to see his messages" }, ...made);
  group.style.setProperty("--columns", campaign.n);
  return group;
}

/* The decisions, or question marks in their place. A wrong prediction is marked. */
export function decisions(course, campaign, view, { revealed, wrong }) {
  const made = all(campaign).map((general) => {
    if (general === campaign.c) return view.kind === "diagram" ? make("span", {}) : null;
    const value = revealed ? String(course.decisions.get(general)) : "?";
    const who = view.kind === "diagram" ? "" : `General ${general} `;
    const does = isTraitor(campaign, general) ? "(traitor)" : "decides";
    return make("p", { class: `decision ${wrong.has(general) ? "wrong" : ""}`, "data-general": general }, make("small", {}, `${who}${does}`), " ", make("b", {}, value));
  });
  const group = make("div", { class: `decisions ${view.kind === "diagram" ? "columns" : ""}`, role: "group", "aria-label": "Decisions" }, ...made.filter(Boolean));
  group.style.setProperty("--columns", campaign.n);
  return group;
}
