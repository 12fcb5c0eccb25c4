/* One campaign on the page: its course, as far as it is shown, and what is known of a general or a message. */
import { isEnough, isTraitor, lieutenants, loyal, scenario, traitors, word } from "./campaign.js";
import { isBroken, origin, read } from "./chronicle.js";
import { make, refill } from "./dom.js";
import { decisions, fits, heads, round } from "./picture.js";
import { ask } from "./server.js";

/* Trees with more labels than this are drawn without the labels below which all messages are the same. */
const MANY_LABELS = 200;
/* What all lieutenants hold is shown together only of at most this many messages. */
const MANY_HELD = 2000;
/* A list of this many generals or more begins with the messages of one. */
const MANY_GENERALS = 6;

export class Pane {
  /* `page` knows what is the same in all panes: step, predict, guesses, view, and is asked to show itself again. */
  constructor(page) {
    this.page = page;
    this.campaign = null;
    this.course = null; // what the program answered
    this.stale = false; // whether the campaign was changed since
    this.failed = false; // whether the program has refused it
    this.isLost = false; // whether the last request had no answer
    this.chosen = null; // the general whose messages are shown, or null for everybody's
    this.isFresh = true; // whether nobody has chosen a general yet
    this.lit = []; // the messages that are an order's origin
    this.asked = 0; // the number of the last request: an older answer is dropped
    this.isHeldOpen = false; // whether it is unfolded what each lieutenant holds
    this.detail = make("section", { class: "detail", hidden: true, "aria-live": "polite" });
    this.body = make("div", {});
    this.element = make("section", { class: "pane" }, this.body, this.detail);
  }

  /* Asks for a campaign's course. Returns what went wrong, or null. */
  async play(campaign) {
    const number = (this.asked += 1);
    this.failed = false;
    if (!this.isLost) this.stale = true;
    this.element.classList.toggle("stale", this.stale);
    const request = { text: scenario(campaign), of: lieutenants(campaign)[0] };
    const answer = await ask("play", campaign.schedule === null ? request : { ...request, schedule: campaign.schedule });
    if (number !== this.asked) return null;
    this.isLost = Boolean(answer.lost);
    if (this.isLost) {
      this.stale = false; // (the campaign that was answered last can still be stepped through)
      return answer;
    }
    this.failed = !answer.ok;
    if (this.failed) return answer;
    this.campaign = structuredClone(campaign);
    this.course = read(answer.text, this.campaign);
    this.stale = false;
    if (this.chosen >= campaign.n) this.refresh();
    this.closeDetail();
    return null;
  }

  closeDetail() {
    this.lit = [];
    this.detail.hidden = true;
  }

  isDecided() {
    return this.page.step > this.course.rounds.length && this.page.isRevealed();
  }

  /* Shows the course as far as the page has come. */
  show() {
    this.element.classList.toggle("stale", this.stale);
    this.element.classList.toggle("failed", this.failed);
    if (!this.course) return;
    const { campaign, course, page } = this;
    const width = Math.floor(this.element.clientWidth);
    this.canDraw = fits(course, campaign.n, width);
    const kind = page.view === "diagram" && !this.canDraw ? "list" : page.view;
    if (this.isFresh) this.chosen = kind !== "list" || campaign.n < MANY_GENERALS ? null : (loyal(campaign)[0] ?? null);
    const view = { width, kind, chosen: this.chosen, lit: this.lit };
    view.onmessage = (messages) => this.showMessage(messages);
    view.ongeneral = (general) => this.choose(general);
    this.element.setAttribute("aria-label", about(campaign));
    const shown = course.rounds.slice(0, page.step).map((_, at) => round(course, campaign, at, view));
    const hasAll = page.step > course.rounds.length;
    const held = page.step >= course.rounds.length ? this.held() : null;
    const wrong = page.wrongGuesses(this);
    refill(this.body, make("h2", { class: "about" }, about(campaign)), heads(campaign, view), ...shown, held,
      hasAll ? decisions(course, campaign, view, { revealed: page.isRevealed(), wrong }) : null,
      hasAll && page.isRevealed() ? make("p", { class: `outcome ${isBroken(course) ? "broken" : ""}` }, make("span", { class: "ending" }, `${ending(course)} `), promise(course, campaign), ` ${sent(course)}`) : null);
  }

  /* What each lieutenant holds after the last round. It is made when it is unfolded. */
  held() {
    const { campaign, course } = this;
    if (course.byLabel.size > MANY_HELD) return make("p", { class: "hint" }, "Choose a general to see what he holds.");
    const fold = make("details", { class: "held" }, make("summary", { "data-key": "held" }, "What each lieutenant holds"));
    const one = (general) => make("section", {}, make("h4", {}, `General ${general}`), holdings(course, campaign, general, course.rounds.length));
    const fill = () => {
      this.isHeldOpen = fold.open;
      if (fold.open && fold.childElementCount === 1) fold.append(make("div", {}, ...lieutenants(campaign).map(one)));
    };
    fold.open = this.isHeldOpen;
    fill();
    fold.addEventListener("toggle", fill);
    return fold;
  }

  /* Forgets which general was chosen. */
  refresh() {
    this.isFresh = true;
    this.chosen = null;
  }

  choose(general) {
    this.isFresh = false;
    this.chosen = this.chosen === general ? null : general;
    this.closeDetail();
    this.show();
    if (this.chosen !== null) this.showGeneral(general);
  }

  fill(...children) {
    const close = make("button", { type: "button", class: "close", onclick: () => { this.closeDetail(); this.show(); } }, "Close");
    this.detail.replaceChildren(...children, close);
    this.detail.hidden = false;
  }

  /* ---- where a message came from */

  showMessage(messages) {
    const { from, to, round: at } = messages[0];
    this.lit = messages.flatMap((message) => origin(this.course, message));
    this.show();
    const items = messages.map((message) => make("li", {}, ...history(this.course, this.campaign, message)));
    this.fill(make("h3", {}, `Round ${at}: general ${from} sends general ${to}`), make("ul", { class: "histories" }, ...items));
    this.detail.scrollIntoView({ block: "nearest" });
  }

  /* ---- what a general holds, and how he decides */

  async showGeneral(general) {
    const { campaign, course } = this;
    const title = make("h3", {}, `General ${general}`);
    if (general === campaign.c) return this.fill(title, make("p", {}, `He is the commander, so he receives no orders. His order is ${word(campaign.o)}.`));
    const held = [make("h4", {}, "What he has received"), holdings(course, campaign, general, this.page.step)];
    if (!this.isDecided()) return this.fill(title, ...held);
    this.fill(title, make("p", {}, "Asking the program ..."));
    const number = this.asked;
    const request = { text: scenario(campaign), of: general };
    const [explained, drawn] = await Promise.all([
      ask("play", campaign.schedule === null ? request : { ...request, schedule: campaign.schedule }),
      campaign.signed || campaign.schedule !== null ? null : ask("tree", { ...request, fold: Number(course.byLabel.size / campaign.n > MANY_LABELS) }),
    ]);
    if (number !== this.asked || this.chosen !== general) return undefined;
    const failed = [explained, drawn].find((answer) => answer && !answer.ok);
    if (failed) return this.fill(title, make("p", {}, failed.why));
    const why = read(explained.text, campaign).why.get(general) ?? [];
    const words = make("ul", { class: "why" }, ...why.map((line) => make("li", {}, line)));
    if (!drawn) return this.fill(title, make("h4", {}, "How he decides"), words, ...held);
    return this.fill(title, make("h4", {}, "His tree"), tree(drawn.text, general), make("details", {}, make("summary", {}, "The lists that he combines"), words), make("details", {}, make("summary", {}, held[0].textContent), held[1]));
  }
}

/* The program's picture of a tree. */
export function tree(text, general) {
  const address = URL.createObjectURL(new Blob([text], { type: "image/svg+xml" }));
  const image = make("img", { src: address, alt: `The tree of general ${general}. The lists next to it say the same.` });
  image.addEventListener("load", () => {
    URL.revokeObjectURL(address);
    image.scrollIntoView({ block: "nearest" });
  });
  return make("div", { class: "tree", tabindex: 0, role: "group", "aria-label": `The tree of general ${general}` }, image);
}

/* How an order came to its receiver: a sentence for each general who sent it on. */
function history(course, campaign, message) {
  const steps = origin(course, message);
  if (message.signed !== null) {
    const signers = message.label.map((general, place) => `${place ? "then " : ""}general ${general}`).join(", ");
    return [`The order ${word(message.order)}, signed by ${signers}.${message.lie ? ` The commander's order was ${word(campaign.o)}.` : ""}`];
  }
  const sentence = ({ from, to, order, right, lie, label }) => {
    const sent = `General ${from} ${label.length > 1 ? "reports to" : "sends"} general ${to} ${order === null ? "nothing, which counts as 0" : word(order)}`;
    return `${sent}${lie ? `: a lie, ${label.length > 1 ? "he received" : "his order was"} ${word(right)}` : ""}.`;
  };
  if (steps.length < 2) return steps.map(sentence);
  return [make("ol", {}, ...steps.map((step) => make("li", {}, sentence(step))))];
}

/* What a lieutenant has received by the end of a round, as a tree of labels. */
function holdings(course, campaign, general, step) {
  if (campaign.signed) {
    const chains = course.rounds.slice(0, step).flatMap((one) => one.messages).filter(({ to }) => to === general);
    if (!chains.length) return make("p", {}, "Nothing.");
    return make("ul", {}, ...chains.map(({ order, label, round: at }) => make("li", {}, `Round ${at}: the order ${word(order)}, signed by ${label.join(", then ")}`)));
  }
  const held = course.rounds.slice(0, step).flatMap((one) => one.messages).filter(({ to }) => to === general);
  const isMany = held.length > 40;
  const below = (label) => {
    const found = held.filter((message) => message.label.length === label.length + 1 && label.every((one, place) => message.label[place] === one));
    return found.length ? make("ul", {}, ...found.map((message) => item(message))) : null;
  };
  const item = (message) => {
    const said = `${message.label.length > 1 ? `${message.from} reports of ${message.label.at(-2)}` : `${message.from} sends`}: ${message.order === null ? "nothing" : message.order}`;
    const inner = below(message.label);
    const mark = message.lie ? "a-lie" : "";
    if (!inner || !isMany || message.label.length < 2) return make("li", { class: mark }, said, inner);
    return make("li", { class: mark }, make("details", {}, make("summary", {}, said), inner));
  };
  return below([]) ?? make("p", {}, "Nothing.");
}

/* ---- sentences */

/* What a campaign is, in one line. */
export function about(campaign) {
  const found = traitors(campaign);
  const who = found.length === 0 ? "no traitors" : `${found.length === 1 ? "traitor" : "traitors"} ${found.join(", ")}`;
  const how = campaign.signed ? "signed messages" : `oral messages, ${campaign.rule}`;
  return `${campaign.n} generals, bound ${campaign.m}, ${how}, ${who}`;
}

/* How a campaign ended. */
export function ending({ verdict: { alike, obeyed } }) {
  if (alike === false) return "Broken: the loyal lieutenants decide differently.";
  if (obeyed === false) return "Broken: the loyal lieutenants disobey a loyal commander.";
  return `The loyal lieutenants agree${obeyed ? " and obey the commander" : ""}.`;
}

/* What was promised of a campaign. */
function promise(course, campaign) {
  if (course.verdict.bound) return "With so few traitors they always agree, and obey a loyal commander: this is proved.";
  if (!isEnough(campaign)) return `Nothing was promised: ${needed(campaign)}.`;
  return `Nothing was promised: there are more traitors than the bound of ${campaign.m}.`;
}

/* How many orders were sent in all. */
function sent(course) {
  const count = course.rounds.flatMap((one) => one.messages).filter(({ order }) => order !== null).length;
  return `They sent ${counted(count, "order")} in ${counted(course.rounds.length, "round")}.`;
}

/* How many generals the bound takes. */
export const needed = ({ m }) => `with oral messages it takes at least ${3 * m + 1} generals to tolerate ${counted(m, "traitor")}`;

export const counted = (count, what) => `${count === 1 ? "one" : count} ${what}${count === 1 ? "" : "s"}`;

/* What happens in the step that is shown. */
export function narration(course, campaign, step) {
  if (step === 0) return `General ${campaign.c} has the order ${word(campaign.o)}. Press Next to begin.`;
  const head = `Round ${step} of ${course.rounds.length}:`;
  if (step === 1) return `${head} the commander${isTraitor(campaign, campaign.c) ? ", a traitor," : ""} sends his order.`;
  if (campaign.signed) return `${head} each lieutenant signs an order that is new to him and passes it on.`;
  return `${head} each lieutenant reports to the others what he received in round ${step - 1}.`;
}

/* The values that somebody may decide: those that were sent, and 0. */
export function values(course) {
  const sent = course.rounds.flatMap((one) => one.messages).map(({ order }) => order ?? 0);
  return [...new Set([0, 1, ...sent])].sort((one, other) => one - other).slice(0, 6);
}

