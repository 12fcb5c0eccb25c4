/* "Break it": attempts within the bound; beyond it the smallest broken campaign, and messages that break the rule. */
import { fromScenario, isEnough, isWithinBound, scenario, traitors } from "./campaign.js";
import { isBroken } from "./chronicle.js";
import { $, make } from "./dom.js";
import { about, counted, needed } from "./pane.js";
import { ask } from "./server.js";

const THEOREM = {
  oral: "With more than 3m generals, at most m of them traitors, all loyal lieutenants decide alike. If the commander is loyal, they decide on his order.",
  signed: "With at least m + 2 generals, at most m of them traitors, all loyal lieutenants decide alike. If the commander is loyal, they decide on his order.",
};
const CERTAIN = "This is proved for all programs of the traitors, in whatever order they act. No attempt of anybody can succeed.";

/* Returns the traitors of a table that `refute` printed. The generals form three groups (docs/FORMATS.md, "refute"), and a group
   are traitors: the commander's group if he sends different orders, else one of the others, according to the order. */
function refuters(table, { n, c }) {
  const sent = [...table.matchAll(new RegExp(`^tell ${c} \\d+ (\\d+)$`, "gm"))].map(([, order]) => order);
  const lying = sent.some((order) => order !== sent[0]) ? 0 : sent[0] === "0" ? 2 : 1;
  const group = (general) => (general === c ? 0 : (general < c ? general + 1 : general) % 3);
  return [...Array(n).keys()].filter((general) => group(general) === lying);
}

export class Breaking {
  /* `load` plays a campaign, and `table` shows a message table with its traitors. */
  constructor(page, canSearch, load, table) {
    this.page = page;
    this.load = load;
    this.table = table;
    this.attempts = null; // the scenarios that were tried, or null if nobody is trying
    this.numbers = ""; // the generals, bound and kind of messages for which attempts are counted
    $("search").hidden = !canSearch;
    $("try").addEventListener("click", () => this.begin());
    $("search").addEventListener("click", () => this.search());
    $("refute").addEventListener("click", () => this.refute());
  }

  forget() {
    this.attempts = null;
    $("found").replaceChildren();
  }

  begin() {
    this.attempts = new Set();
    this.numbers = this.numbersNow();
    $("attempts").textContent = "Change the traitors and their programs. Each campaign that you play counts as an attempt.";
  }

  numbersNow() {
    const { n, m, signed, rule } = this.page.campaign;
    return [n, m, signed, rule].join(" ");
  }

  /* Says what is promised of the campaign that is set up. */
  show() {
    const { campaign } = this.page;
    const kind = campaign.signed ? "signed" : "oral";
    if (this.attempts !== null && this.numbers !== this.numbersNow()) this.forget();
    $("try").hidden = !isEnough(campaign);
    $("refute").hidden = isEnough(campaign);
    $("attempts").hidden = this.attempts === null;
    if (isEnough(campaign) && campaign.m > 0) {
      const over = isWithinBound(campaign) ? "" : ` Now there are ${traitors(campaign).length}, so nothing is promised.`;
      $("promise").textContent = `These ${campaign.n} generals tolerate ${counted(campaign.m, "traitor")}, m = ${campaign.m}. ${THEOREM[kind]} ${CERTAIN}${over}`;
    } else if (isEnough(campaign)) {
      $("promise").textContent = "With the bound 0 the generals provide for no traitor: each obeys what the commander sends.";
    } else {
      $("promise").textContent = `Nothing is promised: ${needed(campaign)}. With fewer, no rule by which lieutenants decide from their messages is right in all cases. This is proved.`;
    }
  }

  /* Counts a campaign that was played, if it is another attempt. */
  played({ course, campaign, stale }) {
    if (this.attempts === null || stale || !isWithinBound(campaign) || !traitors(campaign).length) return;
    this.attempts.add(scenario(campaign));
    const count = this.attempts.size;
    const end = isBroken(course) ? "This one is broken, which contradicts the proof: please report it." : "None has broken the campaign.";
    $("attempts").textContent = `${count} ${count === 1 ? "attempt" : "attempts"}. ${end} ${CERTAIN}`;
    $("attempts").hidden = false;
  }

  /* Searches random campaigns of these numbers for one that breaks, and shows the smallest. */
  async search() {
    const { n, m, signed, rule } = this.page.campaign;
    $("search").disabled = true;
    $("found").replaceChildren(make("p", {}, "Searching ..."));
    const answer = await ask("break", { generals: n, bound: m, signed: Number(signed), median: Number(!signed && rule === "median") });
    $("search").disabled = false;
    $("found").replaceChildren(...this.results(answer, { n, m }));
  }

  /* Shows messages that break the rule: for each rule there are some, if there are too few generals. */
  async refute() {
    const campaign = structuredClone(this.page.campaign);
    const answer = await ask("refute", { generals: campaign.n, bound: campaign.m, commander: campaign.c, median: Number(campaign.rule === "median") });
    if (answer.ok) return this.table(answer.text, refuters(answer.text, campaign));
    return $("found").replaceChildren(make("p", {}, answer.why));
  }

  results(answer, { n, m }) {
    if (!answer.ok) return [make("p", {}, answer.why)];
    const campaign = fromScenario(answer.text);
    if (campaign === null) return [make("p", {}, `No campaign of ${n} generals with bound ${m} that breaks was found among random ones.`)];
    const count = traitors(campaign).length;
    const fewest = `Found with ${counted(count, "traitor")}, the fewest: ${about(campaign)}.`;
    const play = make("button", { type: "button", onclick: () => this.load(campaign) }, "Play it");
    return [make("p", {}, fewest), make("details", {}, make("summary", {}, "The scenario"), make("pre", { tabindex: 0 }, answer.text)), play];
  }
}
