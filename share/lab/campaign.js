/* A campaign: its numbers and its traitors, as a scenario, and as the fragment of a link. */

export const MOST_GENERALS = 13;
const MOST_BOUND = 4;
const MOST_ORDER = 2 ** 32 - 1;
const MOST_WORD = 2 ** 53;
const MOST_STEPS = 4096;

/* The traitors are by general, each with the name of a strategy or a text of assembly of his own. */
export const first = () => ({ n: 3, m: 1, c: 0, o: 1, rule: "majority", signed: false, patience: null, board: [], schedule: null, traitors: {} });

export const all = (campaign) => [...Array(campaign.n).keys()];
export const isTraitor = (campaign, general) => general in campaign.traitors;
export const traitors = (campaign) => Object.keys(campaign.traitors).map(Number);
export const lieutenants = (campaign) => all(campaign).filter((general) => general !== campaign.c);
export const loyal = (campaign) => lieutenants(campaign).filter((general) => !isTraitor(campaign, general));
export const isWithinBound = (campaign) => traitors(campaign).length <= campaign.m && isEnough(campaign);
/* Whether there are enough generals for the bound (of signed messages every campaign has m + 2). */
export const isEnough = (campaign) => campaign.signed || campaign.n > 3 * campaign.m;
export const word = (order) => (order === 1 ? "1 (attack)" : order === 0 ? "0 (retreat)" : String(order));

let strategies = {};
export function useStrategies(known) {
  strategies = known;
}
export const program = (traitor) => traitor.text ?? strategies[traitor.name] ?? "";

/* Brings a campaign into its ranges after a number was changed. */
export function settle(campaign) {
  campaign.m = Math.min(campaign.m, campaign.n - 2);
  campaign.c = Math.min(campaign.c, campaign.n - 1);
  for (const general of traitors(campaign)) if (general >= campaign.n) delete campaign.traitors[general];
}

/* ---- scenarios */

export function scenario(campaign) {
  const quoted = (text) => `"""\n${text.replaceAll("\\", "\\\\").replaceAll('"', '\\"')}"""`;
  const lines = [`generals = ${campaign.n}`, `bound = ${campaign.m}`, `commander = ${campaign.c}`, `order = ${campaign.o}`];
  if (campaign.board.length) lines.push(`board = [${campaign.board.join(", ")}]`);
  if (campaign.patience !== null) lines.push(`patience = ${campaign.patience}`);
  lines.push(campaign.signed ? 'messages = "signed"' : `rule = "${campaign.rule}"`);
  for (const general of traitors(campaign)) {
    lines.push("", "[[traitor]]", `general = ${general}`, `asm = ${quoted(program(campaign.traitors[general]))}`);
  }
  return `${lines.join("\n")}\n`;
}

/* Reads a scenario as the laboratory and its examples write it, or returns null. */
export function fromScenario(text) {
  const [head, ...tables] = text.split(/^\[\[traitor\]\][ \t]*\r?$/m);
  const keys = [...head.matchAll(/^(\w+) *=/gm)].map(([, key]) => key);
  const number = (key, part) => Number(part.match(new RegExp(`^${key} *= *(\\d+)`, "m"))?.[1] ?? NaN);
  const known = ["generals", "bound", "commander", "order", "board", "patience", "rule", "messages"];
  if (!keys.every((key) => known.includes(key))) return null;
  const read = { n: number("generals", head), m: number("bound", head), c: number("commander", head), o: number("order", head), traitors: {} };
  read.patience = keys.includes("patience") ? number("patience", head) : null;
  read.board = (head.match(/^board *= *\[([^\]]*)\]/m)?.[1].match(/\d+/g) ?? []).map(Number);
  read.rule = head.match(/^rule *= *"(\w+)"/m)?.[1] ?? "majority";
  read.signed = /^messages *= *"signed"/m.test(head);
  for (const table of tables) {
    const traitor = fromTable(table);
    if (traitor === null) return null;
    const several = table.match(/^generals *= *\[([^\]]*)\]/m)?.[1].match(/\d+/g);
    for (const general of several ?? [number("general", table)]) read.traitors[general] = { ...traitor };
  }
  const found = inRange(read);
  return found.n === read.n && found.m === read.m && found.c === read.c && found.o === read.o ? found : null;
}

/* The program of a traitor's table: assembly in it, or a strategy that it names, or null. */
function fromTable(table) {
  const asm = table.match(/^asm *= *"""\r?\n?((?:[^"\\]|\\.|"(?!""))*)"""/ms)?.[1];
  if (asm !== undefined) return { text: asm.replace(/\\(["\\])/g, "$1") };
  const name = table.match(/^strategy *= *"(\w+)"/m)?.[1] ?? table.match(/^asm_file *= *"(?:[./\w]*\/)?strategies\/(\w+)\.asm"/m)?.[1];
  return name !== undefined && Object.hasOwn(strategies, name) ? { name } : null;
}

/* A schedule as a line that one can type, with a slash between rounds, and back. */
export const inLine = (schedule) => (schedule ?? "").trimEnd().replaceAll("\n", " / ");
export function fromLine(line) {
  const lines = line.split("/").map((part) => part.trim().replace(/\s+/g, " "));
  return lines.every((part) => part === "") ? null : `${lines.join("\n")}\n`;
}

/* ---- links */

const isWhole = (value, least, most) => Number.isInteger(value) && value >= least && value <= most;
const whole = (value, least, most, otherwise) => (isWhole(value, least, most) ? value : otherwise);

/* Takes each part of a stranger's object only if it is in its range. */
function inRange(read) {
  const start = first();
  const n = whole(read.n, 2, MOST_GENERALS, start.n);
  const found = { ...start, n, m: whole(read.m, 0, Math.min(MOST_BOUND, n - 2), 0), c: whole(read.c, 0, n - 1, 0), o: whole(read.o, 0, MOST_ORDER, 1) };
  Object.assign(found, { rule: read.rule === "median" ? "median" : "majority", signed: read.signed === true });
  found.patience = whole(read.patience, 1, MOST_STEPS, null);
  found.board = Array.isArray(read.board) ? read.board.slice(0, 64).map((value) => whole(value, 0, MOST_WORD, 0)) : [];
  found.schedule = typeof read.schedule === "string" && /^[0-9* \n]{1,4096}$/.test(read.schedule) ? read.schedule : null;
  for (const [general, traitor] of Object.entries(read.traitors ?? {})) {
    const { name, text } = traitor ?? {};
    if (!isWhole(Number(general), 0, n - 1) || String(Number(general)) !== general) continue;
    found.traitors[general] = typeof text === "string" ? { text } : { name: Object.hasOwn(strategies, name) ? name : Object.keys(strategies)[0] };
  }
  return found;
}

/* The bytes that a stream makes of bytes, at most `most` of them. */
async function through(stream, bytes, most) {
  const reader = new Blob([bytes]).stream().pipeThrough(stream).getReader();
  const parts = [];
  for (let size = 0; ; ) {
    const { done, value } = await reader.read();
    if (done) return new Uint8Array(await new Blob(parts).arrayBuffer());
    if ((size += value.length) > most) throw new Error("too long");
    parts.push(value);
  }
}

/* A campaign as a fragment: its parts that differ from the first campaign, deflated, in base64url. */
export async function packed(campaign) {
  const start = first();
  const parts = Object.fromEntries(Object.entries(campaign).filter(([key, value]) => JSON.stringify(value) !== JSON.stringify(start[key])));
  const bytes = await through(new CompressionStream("deflate-raw"), new TextEncoder().encode(JSON.stringify(parts)), 1 << 20);
  return btoa(Array.from(bytes, (byte) => String.fromCharCode(byte)).join("")).replaceAll("+", "-").replaceAll("/", "_").replaceAll("=", "");
}

export async function unpacked(fragment) {
  const bytes = Uint8Array.from(atob(fragment.replaceAll("-", "+").replaceAll("_", "/")), (sign) => sign.charCodeAt(0));
  const read = JSON.parse(new TextDecoder().decode(await through(new DecompressionStream("deflate-raw"), bytes, 1 << 18)));
  return inRange({ ...first(), ...read });
}
