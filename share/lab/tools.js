/* A message table that the program decides, and a chronicle that it compares with the campaign. */
import { MOST_GENERALS, scenario } from "./campaign.js";
import { $, later, make, refill } from "./dom.js";
import { tree } from "./pane.js";
import { ask } from "./server.js";

const WAIT = 300; // milliseconds after the last key
const label = (name) => name.replaceAll("_", " ");

export class Tools {
  /* `answered` is called with a text and what the program says about it, and `show` shows the campaign again. */
  constructor(page, tables, answered, show) {
    this.page = page;
    this.tables = tables;
    this.answered = answered;
    this.liars = new Set(); // the generals of the table who are named as traitors
    this.isDecided = false; // whether the decisions of the table are wanted, and not only its faults
    const names = Object.keys(tables);
    $("stored").append(make("option", { value: "" }, "a table of your own"), ...names.map((name) => make("option", { value: name }, label(name))));
    $("stored").addEventListener("change", () => this.choose($("stored").value));
    $("table").addEventListener("input", later(WAIT, () => this.read()));
    $("decide").addEventListener("click", () => this.reveal());
    $("lieutenant").addEventListener("change", () => this.draw());
    $("leave").addEventListener("click", () => {
      this.leave();
      show();
      $("stage").focus();
    });
    $("audit").addEventListener("click", () => this.audit());
  }

  choose(name) {
    return Object.hasOwn(this.tables, name) ? this.table(this.tables[name]) : undefined;
  }

  /* Shows a message table in the place of the campaign, with some generals named as traitors. The decisions are hidden. */
  table(text, liars = []) {
    $("table").value = text;
    this.liars = new Set(liars);
    this.isDecided = false;
    $("decided").textContent = "";
    $("stage").append($("tables"));
    $("tables").open = true;
    $("course").hidden = true;
    $("leave").hidden = false;
    return this.read();
  }

  /* Puts the table back into its fold, and the campaign into its place. */
  leave() {
    if ($("tables").parentElement !== $("stage")) return;
    $("tables").open = false;
    $("records").before($("tables"));
    $("course").hidden = false;
    $("leave").hidden = true;
  }

  /* Reads the table as it was typed: it shows its generals, and its decisions or its faults. */
  read() {
    const text = $("table").value;
    const [, n, commander] = /^generals +(\d+) +bound +\d+ +commander +(\d+)/.exec(text) ?? [];
    const generals = [...Array(Math.min(Number(n ?? 0), MOST_GENERALS)).keys()];
    $("stored").value = Object.keys(this.tables).find((name) => this.tables[name] === text) ?? "";
    for (const general of this.liars) if (general >= generals.length) this.liars.delete(general);
    refill($("liars"), ...generals.map((general) => this.general(general)));
    const lieutenants = generals.filter((general) => general !== Number(commander)).map(String);
    const chosen = $("lieutenant").value;
    $("lieutenant").replaceChildren(make("option", { value: "" }, "nobody"), ...lieutenants.map((general) => make("option", { value: general }, `general ${general}`)));
    $("lieutenant").value = lieutenants.includes(chosen) ? chosen : "";
    return Promise.all([this.decide(), this.draw()]);
  }

  general(general) {
    const is = this.liars.has(general);
    const toggle = () => {
      if (is) this.liars.delete(general);
      else this.liars.add(general);
      this.read();
    };
    const name = `General ${general} of the table: ${is ? "traitor" : "not named"}`;
    return make("button", { type: "button", "aria-pressed": String(is), "aria-label": name, "data-key": `liar ${general}`, onclick: toggle }, String(general));
  }

  request() {
    return { text: $("table").value, traitors: [...this.liars].sort((one, other) => one - other) };
  }

  reveal() {
    this.isDecided = true;
    $("decided").focus();
    return this.decide();
  }

  async decide() {
    const request = this.request();
    $("decide").hidden = this.isDecided;
    if (request.text.trim() === "") {
      $("decided").textContent = "";
      return;
    }
    const answer = await ask("book", request);
    if (JSON.stringify(request) !== JSON.stringify(this.request())) return;
    $("decided").textContent = answer.ok && !this.isDecided ? "The table is complete. What does each lieutenant decide?" : answer.ok ? answer.text : answer.why;
    if (answer.ok && this.isDecided) this.answered(`${request.text}\n${answer.text}`);
  }

  /* Draws the tree of the lieutenant who is chosen. */
  async draw() {
    const request = { ...this.request(), of: Number($("lieutenant").value) };
    if ($("lieutenant").value === "") return $("drawn").replaceChildren();
    const answer = await ask("tree", request);
    if (JSON.stringify(request) !== JSON.stringify({ ...this.request(), of: Number($("lieutenant").value) })) return undefined;
    return $("drawn").replaceChildren(answer.ok ? tree(answer.text, request.of) : make("p", {}, answer.why));
  }

  /* Shows a chronicle, which may be another campaign's. */
  chronicle(text) {
    $("chronicle").value = text;
    $("records").open = true;
    $("records").scrollIntoView({ block: "nearest" });
  }

  async audit() {
    const chronicle = $("chronicle").value;
    const answer = await ask("audit", { text: scenario(this.page.campaign), chronicle });
    $("audited").textContent = answer.ok ? `The chronicle is this campaign's: ${answer.text.trim().replaceAll("\n", ", ")}.` : answer.why;
    if (answer.ok) this.answered(`${chronicle}\n${answer.text}`);
  }
}
