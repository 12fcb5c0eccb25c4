/* Reads the lines of JSON by which the program reports a campaign. */
import { all, isTraitor } from "./campaign.js";
import { objects } from "./server.js";

/* The lines of a chronicle that exercises ask for, by the kinds of their objects. */
const spelled = (value) => ({ true: "yes", false: "no", null: "-" })[value] ?? String(value);
const LINES = {
  row: ({ rank, orders }) => `row ${rank} ${orders.map(spelled).join(" ")}`,
  decision: ({ general, traitor, decision }) => `decision ${general} ${traitor ? "traitor " : ""}${decision}`,
  verdict: ({ alike, obeyed, bound }) => `verdict alike ${spelled(alike)} obeyed ${spelled(obeyed)} bound ${spelled(bound)}`,
};

/* The lines by which a lieutenant's decision is explained, after the line that names him. */
const held = (order) => (order === null ? "nothing" : String(order));
const REASONS = {
  list: ({ label, received, orders, outcome }) =>
    `${label.join(".")}: ${[`received ${held(received)}`, ...orders.map((entry) => `${entry.label.join(".")} ${held(entry.order)}`)].join(", ")}: ${outcome}`,
  acceptance: ({ order, signers }) => `accepts ${order}, signed ${signers.join(".")}`,
  decision: (line) => (line.sentence ? `${LINES.decision(line)}: ${line.sentence}` : LINES.decision(line)),
};

/* Returns the rounds with their accesses and messages, the decisions and explanations by general, and the verdict.
   A message has a label (who relayed the order, the commander first), its order (null for none), the order that a loyal general
   would send (`right`), and whether it is a lie. The program reports what was sent. What a loyal general would have sent is
   looked up here in the messages of the round before. */
export function read(text, campaign) {
  const course = { rounds: [], decisions: new Map(), verdict: null, why: new Map(), byLabel: new Map(), lines: [] };
  for (const line of objects(text)) {
    if (Object.hasOwn(LINES, line.line)) course.lines.push(LINES[line.line](line));
    if (line.line === "round") course.rounds.push({ accesses: [], messages: [] });
    else if (line.line === "access") course.rounds.at(-1).accesses.push(line);
    else if (line.line === "row") addRow(course, campaign, line);
    else if (line.line === "chain") addChain(course, campaign, line);
    else if (line.line === "decision") course.decisions.set(line.general, line.decision);
    else if (line.line === "verdict") course.verdict = line;
    else if (line.line === "lieutenant") course.why.set(line.general, []);
    if (Object.hasOwn(REASONS, line.line)) course.why.get(line.general)?.push(REASONS[line.line](line));
  }
  return course;
}

/* Several signed orders may have the same label and receiver. */
const keyOf = (label, to, signed = null) => `${label.join(".")}>${to}${signed === null ? "" : `=${signed}`}`;

/* The order that a general took: what he received with this label, or 0 if he received nothing. */
const taken = (course, label, general) => course.byLabel.get(keyOf(label, general))?.order ?? 0;

function addRow(course, campaign, row) {
  const label = [...row.label, row.general];
  const right = row.label.length ? taken(course, row.label, row.general) : campaign.o;
  const receivers = all(campaign).filter((general) => !label.includes(general));
  row.orders.forEach((order, place) => {
    add(course, { from: row.general, to: receivers[place], label, order, right, signed: null, lie: order !== right && isTraitor(campaign, row.general) });
  });
}

/* A chain cannot be changed, so only a commander can lie: by signing another order than the one that he has. */
function addChain(course, campaign, chain) {
  const lie = chain.signers[0] === chain.general && chain.order !== campaign.o;
  const { general: from, signers: label, order } = chain;
  for (const to of chain.receivers) add(course, { from, to, label, order, right: order, signed: order, lie });
}

function add(course, message) {
  const round = course.rounds.at(-1);
  round.messages.push({ ...message, round: course.rounds.length });
  const key = keyOf(message.label, message.to, message.signed);
  if (!course.byLabel.has(key)) course.byLabel.set(key, round.messages.at(-1));
}

/* The messages of a round, in groups of the same sender and receiver. */
export function grouped(round) {
  const found = new Map();
  for (const message of round.messages) {
    const key = `${message.from}>${message.to}`;
    if (!found.has(key)) found.set(key, []);
    found.get(key).push(message);
  }
  return [...found.values()].sort(([one], [other]) => one.from - other.from || one.to - other.to);
}

/* The orders of a group in a few signs: 1×2 is the order 1 twice. */
export function brief(group) {
  const counts = new Map();
  for (const { order } of group) counts.set(order, (counts.get(order) ?? 0) + 1);
  return [...counts].map(([order, count]) => (order === null ? "–" : short(order)) + (count > 1 ? `×${count}` : ""));
}

const short = (order) => (String(order).length > 4 ? `${String(order).slice(0, 3)}…` : String(order));

/* How the orders of a group are read aloud. */
export function aloud(group) {
  const counts = new Map();
  for (const { order } of group) counts.set(order, (counts.get(order) ?? 0) + 1);
  return [...counts].map(([order, count]) => (order === null ? "nothing" : `the order ${order}`) + (count > 1 ? `, ${count} times` : "")).join("; ");
}

export const kind = (group) => (group.every(({ order }) => order === null) ? "none" : group.some(({ lie }) => lie) ? "lie" : "plain");

/* The messages by which an order reached its receiver, the commander's first. */
export const origin = (course, { label, to, signed }) =>
  label.map((_, place) => course.byLabel.get(keyOf(label.slice(0, place + 1), label[place + 1] ?? to, signed))).filter(Boolean);

/* Whether the loyal lieutenants do not decide alike, or do not obey a loyal commander. */
export const isBroken = ({ verdict }) => verdict.alike === false || verdict.obeyed === false;
