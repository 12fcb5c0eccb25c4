/* The laboratory's page: sets up a campaign, asks the proved program for its course, and shows it round by round. */
import { first, fromScenario, isTraitor, loyal, packed, program, scenario, settle, unpacked, useStrategies, word } from "./campaign.js";
import { isBroken } from "./chronicle.js";
import { $, download, later, make, refill } from "./dom.js";
import { Editor } from "./editor.js";
import { Exercise } from "./exercise.js";
import { Breaking } from "./breaking.js";
import { Orders } from "./orders.js";
import { Pane, ending, narration, values } from "./pane.js";
import { Setup } from "./setup.js";
import { Tools } from "./tools.js";
import { ask } from "./server.js";

const WAIT = 60; // milliseconds after the last change
const RETRY = 5000; // milliseconds after which a server that does not answer is asked again
const PREDICT = "predict";
const FIRST_STRATEGY = "inverts";
const EXERCISE = "exercise=";
const TABLE = "table=";
const STORY = "story=";

const page = {
  campaign: first(),
  step: 0, // how many rounds are shown; one more shows the decisions
  view: "diagram",
  predict: false,
  guesses: {}, // by general, and whether they decide alike (`alike`)
  revealed: true,
  score: { right: 0, asked: 0 },
  isRevealed: () => page.revealed,
  wrongGuesses: (pane) => new Set(pane === main && page.revealed ? Object.keys(page.guesses).filter((key) => key !== "alike" && !isRight(key)).map(Number) : []),
};
const main = new Pane(page);
const other = new Pane(page);
let setup, editor, exercise, breaking, orders, tools;
let retry = 0; // the timer of the next attempt

/* ---- playing */

/* Plays the campaign. Returns what went wrong, or undefined. */
async function play() {
  clearTimeout(retry);
  breaking.show();
  const failures = await Promise.all([main.play(page.campaign), compared() ? other.play(compared()) : null]);
  const failure = failures.find(Boolean);
  complain(failure);
  clearTimeout(retry);
  if (failure?.lost) {
    retry = setTimeout(play, RETRY);
  } else {
    page.guesses = {};
    page.revealed = !page.predict;
  }
  if (main.course) page.step = Math.min(page.step, last());
  if (!failure) breaking.played(main);
  show();
  return failure;
}
const playSoon = later(WAIT, play);

/* Says what went wrong (a failure with `why`, and `traitor` if his program is rejected, or null), and what can be done about it. */
function complain(failure) {
  const culprit = failure?.traitor;
  const isProgram = culprit !== undefined && isTraitor(page.campaign, culprit);
  const text = !failure ? "" : isProgram ? `The program of general ${culprit} is rejected. ${failure.why}` : failure.why;
  const kept = failure?.lost && main.course ? " The campaign below is the last one that it played." : "";
  $("fault").hidden = !failure;
  if ($("fault").firstElementChild.textContent !== text + kept) $("fault").firstElementChild.textContent = text + kept;
  $("again").hidden = !failure?.lost;
  $("culprit").hidden = !isProgram || editor.general === culprit;
  $("culprit").dataset.general = culprit;
}

const last = () => main.course.rounds.length + 1;
const hasDecisions = () => main.course !== null && page.step >= last();

/* The campaign of the second pane: the same with other messages or another rule. */
function compared() {
  const kind = $("compare").value;
  if (!kind) return null;
  return { ...page.campaign, signed: kind === "signed", rule: kind === "signed" ? page.campaign.rule : kind };
}

/* The campaign was changed: it begins anew, without the order of accesses that belonged to the old one. */
function changed() {
  tools.leave();
  page.campaign.schedule = null;
  settle(page.campaign);
  if (editor.general !== null && !isTraitor(page.campaign, editor.general)) editor.close();
  setup.show();
  orders.clear();
  page.step = 0;
  main.stale = other.stale = true;
  if (main.campaign?.n !== page.campaign.n) main.refresh();
  show();
  playSoon();
}

/* ---- showing */

function show() {
  if ($("course").hidden) return; // (a message table is shown)
  const isTwo = Boolean(compared()) && other.course !== null;
  $("panes").classList.toggle("two", isTwo);
  if (isTwo && !other.element.isConnected) $("panes").append(other.element);
  if (!isTwo) other.element.remove();
  main.show();
  if (isTwo) other.show();
  const { course } = main;
  $("back").disabled = !course || page.step === 0;
  $("next").disabled = !course || hasDecisions();
  $("said").textContent = course ? sentence() : "";
  $("said").classList.toggle("broken", hasDecisions() && page.revealed && isBroken(course));
  $("ask").hidden = !hasDecisions() || page.revealed;
  if (!$("ask").hidden) questions();
  $("order").hidden = page.campaign.schedule === null;
  if (page.campaign.schedule !== null) $("order").firstElementChild.textContent = `Schedule: ${scheduled(page.campaign.schedule)}.`;
  const isNarrow = Boolean(course) && !main.canDraw;
  $("view").options[0].disabled = isNarrow;
  $("narrow").hidden = !isNarrow;
  $("view").value = isNarrow && page.view === "diagram" ? "list" : page.view;
  setup.showStory();
  if (exercise.goals.length && hasDecisions() && page.revealed && !main.stale) exercise.answered(course.lines.join("\n"));
}

const scheduled = (schedule) => schedule.trimEnd().split("\n").map((line, at) => `round ${at + 1}: ${line || "-"}`).join("; ");

function sentence() {
  if (!hasDecisions()) return narration(main.course, main.campaign, page.step);
  if (!page.revealed) return "Now each lieutenant decides. What do you predict?";
  return `${scored()}${ending(main.course)} Choose a general to see why.`;
}

function move(by) {
  if (!main.course) return;
  const button = document.activeElement;
  page.step = Math.max(0, Math.min(last(), page.step + by));
  main.closeDetail();
  other.closeDetail();
  show();
  if (button === $("next") || button === $("back")) (button.disabled ? $("stage") : button).focus({ preventScroll: true });
  const shown = main.body.lastElementChild;
  if (page.step > 0) shown?.scrollIntoView({ block: "nearest" });
}

/* ---- predictions */

const isRight = (key) => page.guesses[key] === (key === "alike" ? main.course.verdict.alike : main.course.decisions.get(Number(key)));

function scored() {
  const keys = Object.keys(page.guesses);
  if (!keys.length) return "";
  const all = page.score.asked > keys.length ? ` (${page.score.right} of ${page.score.asked} in all)` : "";
  return `You had ${keys.filter(isRight).length} of ${keys.length} right${all}. `;
}

function questions() {
  const row = (key, text, choices) =>
    make("div", { role: "group", "aria-label": text }, make("span", {}, text),
      ...choices.map(([name, value]) => make("button", { type: "button", "data-key": `${key} ${name}`, "aria-pressed": String(page.guesses[key] === value), onclick: () => guess(key, value) }, name)));
  refill($("ask"),
    ...loyal(main.campaign).map((general) => row(general, `General ${general} decides`, values(main.course).map((value) => [word(value), value]))),
    row("alike", "Do the loyal lieutenants agree?", [["yes", true], ["no", false]]),
    make("div", {}, make("button", { type: "button", id: "reveal", onclick: reveal }, "Show the decisions")));
}

function guess(key, value) {
  page.guesses[key] = value;
  if (Object.keys(page.guesses).length < loyal(main.campaign).length + 1) return show();
  page.score.asked += Object.keys(page.guesses).length;
  page.score.right += Object.keys(page.guesses).filter(isRight).length;
  return reveal();
}

function reveal() {
  page.revealed = true;
  show();
  main.body.querySelector(".decisions")?.scrollIntoView({ block: "nearest" });
}

/* ---- links and files */

async function share(isExercise) {
  const campaign = await packed(page.campaign).catch(() => null);
  if (campaign === null) return complain({ why: "This browser cannot make links. Keep the scenario instead." });
  const fragment = `${isExercise ? `${PREDICT},` : ""}${campaign}`;
  history.replaceState(null, "", `#${fragment}`);
  $("link").value = location.href;
  $("shared").hidden = false;
  $("link").select();
  const isCopied = await (navigator.clipboard?.writeText(location.href) ?? Promise.reject()).then(() => true, () => false);
  $("copied").textContent = isCopied ? "The link is copied." : "Copy the link from here.";
  return undefined;
}

async function save(command, name, type) {
  const text = scenario(page.campaign);
  if (command === null) return download(name, type, text);
  const { schedule } = page.campaign;
  const answer = await ask(command, schedule === null ? { text } : { text, schedule });
  return answer.ok ? download(name, type, answer.text) : complain(answer);
}

/* Opens what the link's fragment says: nothing, an exercise, a message table, `predict`, a campaign, or `predict,` and a campaign.
   A campaign is `story=` and a name, or the campaign itself. */
function openLink() {
  const fragment = location.hash.slice(1);
  if (fragment.startsWith(EXERCISE)) return openExercise(fragment.slice(EXERCISE.length));
  if (fragment.startsWith(TABLE)) return openTable(fragment.slice(TABLE.length));
  const [mode, rest] = /^(predict(?:,|$))?(.*)$/s.exec(fragment).slice(1);
  page.predict = mode !== undefined;
  if (rest.startsWith(STORY)) return openStory(rest.slice(STORY.length));
  return rest ? openCampaign(rest) : load((mode && setup.story("three_generals")) || first());
}

async function openCampaign(fragment) {
  const campaign = await unpacked(fragment).catch(() => null);
  const failure = await load(campaign ?? first());
  if (campaign === null && !failure) complain({ why: "The link is damaged. This is a new campaign." });
}

async function openStory(name) {
  const campaign = setup.story(name);
  const failure = await load(campaign ?? first());
  if (campaign === null && !failure) complain({ why: `There is no story ${name.slice(0, 40)}. This is a new campaign.` });
}

async function openTable(name) {
  page.predict = false;
  const failure = await load(first());
  const isKnown = tools.choose(name) !== undefined;
  if (!isKnown && !failure) complain({ why: `There is no table ${name.slice(0, 40)}. This is a new campaign.` });
}

/* Opens an exercise's file of examples/exercises: a campaign, a traitor's program, a message table, or a chronicle. */
async function openExercise(name) {
  const found = exercise.find(name);
  const { ending, text, traitors } = found ?? {};
  page.predict = false;
  const failure = await load((ending === "toml" && fromScenario(text)) || (ending === "asm" && mended(text)) || (ending === "chronicle" && setup.story("two_faced")) || first());
  if (found === null && !failure) complain({ why: `There is no exercise ${name.slice(0, 40)}. This is a new campaign.` });
  if (found !== null) exercise.begin(name, text);
  if (ending === "asm") editor.open(3, text);
  if (ending === "table") await tools.table(text, traitors);
  if (ending === "chronicle") tools.chronicle(text);
}

/* A campaign of four generals, the last of whom has this program. */
const mended = (text) => ({ ...first(), n: 4, traitors: { 3: { text } } });

/* Shows another campaign from its beginning. */
function load(campaign) {
  page.campaign = campaign;
  page.step = 0;
  $("predict").checked = page.predict;
  exercise.end();
  tools.leave();
  main.refresh();
  other.refresh();
  editor.close();
  orders.clear();
  breaking.forget();
  setup.show();
  return play();
}

/* ---- controls */

/* The keys step, unless they mean something where the focus is. */
function press(event) {
  const isText = event.target.closest("textarea, select, input:not([type=checkbox])");
  if ($("course").hidden || isText || event.altKey || event.ctrlKey || event.metaKey || event.defaultPrevented) return;
  const isButton = event.target.closest("button, input, summary, a, [role=button]");
  const by = { ArrowRight: 1, ArrowLeft: -1, " ": isButton ? 0 : 1 }[event.key];
  if (!by) return;
  event.preventDefault();
  move(by);
}

function listen() {
  const clicks = { next: () => move(1), back: () => move(-1), share: () => share(false), exercise: () => share(true), print: () => window.print(), again: play };
  clicks["save-scenario"] = () => save(null, "campaign.toml", "application/toml");
  clicks["save-chronicle"] = () => save("chronicle", "campaign.chronicle", "text/plain");
  clicks["save-page"] = () => save("page", "campaign.html", "text/html");
  clicks["save-picture"] = () => save("draw", "campaign.svg", "image/svg+xml");
  clicks.punctual = changed;
  clicks.culprit = () => setup.on.edit(Number($("culprit").dataset.general));
  for (const [id, act] of Object.entries(clicks)) $(id).addEventListener("click", act);
  $("predict").addEventListener("change", () => {
    page.predict = $("predict").checked;
    page.guesses = {};
    page.revealed = !page.predict;
    show();
  });
  $("view").addEventListener("change", () => {
    page.view = $("view").value;
    show();
  });
  $("compare").addEventListener("change", play);
  $("large").addEventListener("change", () => {
    document.documentElement.classList.toggle("large", $("large").checked);
    show();
  });
  $("open").addEventListener("change", openFile);
  $("setup").addEventListener("submit", (event) => event.preventDefault());
  document.addEventListener("keydown", press);
  window.addEventListener("resize", later(200, show));
  window.addEventListener("online", () => ($("again").hidden ? null : play()));
  window.addEventListener("hashchange", openLink);
}

async function openFile() {
  const [file] = $("open").files;
  if (!file) return;
  const campaign = fromScenario(await file.text());
  if (campaign) load(campaign);
  else complain({ why: `${file.name} is not a scenario that this page can edit: its programs must be written in it as assembly.` });
}

async function begin() {
  const known = await (await fetch("examples.json")).json();
  useStrategies(known.strategies);
  $("panes").append(main.element);
  editor = new Editor(play, (general, text) => {
    page.campaign.traitors[general] = { text };
    page.campaign.schedule = null;
    setup.show();
  }, (text, verdict) => exercise.answered(`${text}\n${verdict}`));
  exercise = new Exercise(known.exercises, known.tasks);
  setup = new Setup(page, known, {
    changed,
    load,
    edit: (general) => {
      tools.leave();
      show();
      editor.open(general, program(page.campaign.traitors[general]));
    },
    strategy: FIRST_STRATEGY in known.strategies ? FIRST_STRATEGY : Object.keys(known.strategies)[0],
  });
  tools = new Tools(page, known.tables, (text) => exercise.answered(text), show);
  breaking = new Breaking(page, known.searches, load, (text, liars) => tools.table(text, liars));
  orders = new Orders(page, () => {
    tools.leave();
    page.step = 0;
    play();
  });
  listen();
  new ResizeObserver(() => document.documentElement.style.setProperty("--controls", `${$("controls").offsetHeight}px`)).observe($("controls"));
  $("more").open = innerWidth >= 900;
  await openLink();
}

begin().catch(() => {
  $("fault").hidden = false;
  $("fault").firstElementChild.textContent = "The laboratory does not answer. Load this page again.";
  $("again").hidden = $("culprit").hidden = true;
});
