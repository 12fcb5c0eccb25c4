/* The form in which a campaign is set up. */
import { all, fromScenario, isTraitor, traitors } from "./campaign.js";
import { $, make, refill } from "./dom.js";

const OWN = "own program";
const MOST_WORDS = 64;
const label = (name) => name.replaceAll("_", " ");
const areEqual = (one, other) => JSON.stringify(one) === JSON.stringify(other);

/* The comments at the head of a text, without their marks. */
export function comments(text, mark) {
  const lines = text.split("\n");
  const end = lines.findIndex((line) => !line.startsWith(mark));
  return lines.slice(0, end < 0 ? lines.length : end).map((line) => line.slice(mark.length).trim()).join(" ");
}

export class Setup {
  /* `on` has what the form does: changed(), load(campaign), edit(general), and the first `strategy` of a traitor. */
  constructor(page, { stories, schedules, strategies }, on) {
    this.page = page;
    this.on = on;
    this.strategies = strategies;
    this.stories = new Map(); // by name: the campaign and the scenario's text
    for (const [name, text] of Object.entries(stories)) this.addStory(name, text, null);
    for (const [name, schedule] of Object.entries(schedules)) {
      const base = Object.keys(stories).filter((one) => name.startsWith(`${one}_`)).sort((one, other) => other.length - one.length)[0];
      if (base !== undefined) this.addStory(name, stories[base], schedule);
    }
    const names = [...this.stories.keys()].sort();
    $("story").append(make("option", { value: "" }, "a campaign of your own"), ...names.map((name) => make("option", { value: name }, label(name))));
    $("story").addEventListener("change", () => this.choose($("story").value));
    for (const id of ["n", "m", "o", "c", "patience"]) $(id).addEventListener("change", () => this.number(id));
    $("rule").addEventListener("change", () => this.set("rule", $("rule").value));
    $("signed").addEventListener("change", () => this.set("signed", $("signed").value === "signed"));
    $("board").addEventListener("change", () => this.set("board", ($("board").value.match(/\d+/g) ?? []).slice(0, MOST_WORDS).map(Number)));
  }

  /* A schedule is a story of its own: collusion_twice is the scenario collusion, played by this schedule. */
  addStory(name, text, schedule) {
    const campaign = fromScenario(text);
    if (campaign !== null) this.stories.set(name, { campaign: { ...campaign, schedule }, text });
  }

  /* Returns the campaign of a story, or null if there is no such story. */
  story(name) {
    return this.stories.has(name) ? structuredClone(this.stories.get(name).campaign) : null;
  }

  choose(name) {
    const campaign = this.story(name);
    if (campaign === null) return;
    $("told").open = true;
    this.on.load(campaign);
  }

  set(key, value) {
    this.page.campaign[key] = value;
    this.on.changed();
  }

  number(id) {
    const field = $(id);
    if (id === "patience" && field.value === "") return this.set(id, null);
    if (field.value !== "" && field.checkValidity()) return this.set(id, Number(field.value));
    return field.reportValidity?.();
  }

  show() {
    const { campaign } = this.page;
    for (const id of ["n", "m", "o", "rule"]) $(id).value = campaign[id];
    $("m").max = Math.min(4, campaign.n - 2);
    $("signed").value = campaign.signed ? "signed" : "oral";
    $("rule").disabled = campaign.signed;
    $("patience").value = campaign.patience ?? "";
    $("board").value = campaign.board.join(" ");
    $("c").replaceChildren(...all(campaign).map((general) => make("option", {}, String(general))));
    $("c").value = campaign.c;
    this.showStory();
    refill($("generals"), ...all(campaign).map((general) => this.general(general)));
    refill($("traitors"), ...traitors(campaign).map((general) => this.traitor(general)));
  }

  /* The story is shown as long as the campaign is the one that it is about, and the decisions need not be predicted: it gives
     them away. */
  showStory() {
    const names = [...this.stories.keys()];
    const has = (campaign) => names.find((name) => areEqual(this.stories.get(name).campaign, campaign));
    const name = has(this.page.campaign) ?? has({ ...this.page.campaign, schedule: null });
    $("story").value = name ?? "";
    $("told").hidden = !name || (this.page.predict && !this.page.revealed);
    $("story-text").textContent = name ? comments(this.stories.get(name).text, "#") : "";
  }

  general(general) {
    const { campaign } = this.page;
    const is = isTraitor(campaign, general);
    const name = `General ${general}${general === campaign.c ? ", commander" : ""}: ${is ? "traitor" : "loyal"}`;
    const toggle = () => {
      if (is) delete campaign.traitors[general];
      else campaign.traitors[general] = { name: this.on.strategy };
      this.on.changed();
    };
    return make("button", { type: "button", "aria-pressed": String(is), "aria-label": name, "data-key": `general ${general}`, onclick: toggle }, `${general}${general === campaign.c ? " ★" : ""}`);
  }

  /* What a traitor does: a strategy of the list, with what it says about itself, or a program of his own. */
  traitor(general) {
    const traitor = this.page.campaign.traitors[general];
    const options = Object.keys(this.strategies).map((name) => make("option", { value: name }, label(name)));
    if (traitor.text !== undefined) options.push(make("option", { value: "" }, OWN));
    const choose = (event) => {
      this.page.campaign.traitors[general] = { name: event.target.value };
      this.on.changed();
    };
    const id = `strategy-${general}`;
    const list = make("select", { id, "data-key": id, onchange: choose }, ...options);
    list.value = traitor.text === undefined ? traitor.name : "";
    const edit = make("button", { type: "button", "data-key": `edit ${general}`, "aria-label": `Program of general ${general}`, onclick: () => this.on.edit(general) }, "Program");
    const about = traitor.text === undefined ? this.about(traitor.name) : [make("p", {}, "He follows his own program.")];
    return make("div", { class: "card" }, make("label", { for: id }, `Traitor ${general}`), list, edit, ...about);
  }

  /* What a strategy's comments say: the first sentence, and the rest to unfold. */
  about(name) {
    const [, first, rest] = /^(.*?\.)(?:\s+(.*))?$/s.exec(comments(this.strategies[name] ?? "", ";")) ?? [];
    if (!first) return [];
    return [make("p", {}, first), rest ? make("details", {}, make("summary", {}, "More"), make("p", {}, rest)) : null];
  }
}
