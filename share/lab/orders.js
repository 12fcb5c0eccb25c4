/* "All orders": every order in which the traitors can use the board, and a schedule for each outcome. */
import { fromLine, inLine, lieutenants, scenario } from "./campaign.js";
import { $, make } from "./dom.js";
import { ask } from "./server.js";

const MOST_ORDERS = 5000;

export class Orders {
  /* `play` plays the campaign with the schedule that was chosen. */
  constructor(page, play) {
    this.page = page;
    this.play = play;
    $("explore").addEventListener("click", () => this.explore());
    $("schedule").addEventListener("change", () => this.choose(fromLine($("schedule").value)));
  }

  clear() {
    $("explored").textContent = "";
    $("outcomes").replaceChildren();
    $("schedule").value = inLine(this.page.campaign.schedule);
  }

  choose(schedule) {
    this.page.campaign.schedule = schedule;
    $("schedule").value = inLine(schedule);
    this.play();
  }

  async explore() {
    const { campaign } = this.page;
    if (campaign.signed) {
      $("explored").textContent = "Orders can be explored only for oral messages.";
      return;
    }
    $("explore").disabled = true;
    $("explored").textContent = "Playing ...";
    const answer = await ask("explore", { text: scenario(campaign), most: MOST_ORDERS });
    $("explore").disabled = false;
    if (!answer.ok) {
      $("explored").textContent = answer.why;
      return;
    }
    const { orders, outcomes } = read(answer.text);
    $("explored").textContent = `${orders === "1" ? "There is 1 order" : `There are ${orders} orders`} of the accesses to the board, with ${outcomes.length === 1 ? "one outcome" : `${outcomes.length} outcomes`}.`;
    $("outcomes").replaceChildren(make("ol", {}, ...outcomes.map((outcome) => this.outcome(outcome))));
  }

  outcome({ count, alike, obeyed, decisions, schedule }) {
    const said = lieutenants(this.page.campaign).map((general, place) => `${general}: ${decisions[place]}`).join(", ");
    const end = alike === "no" ? "broken, they decide differently" : obeyed === "no" ? "broken, they disobey" : "they agree";
    return make("li", {}, `${count === "1" ? "1 order" : `${count} orders`}: ${end}. Decisions: ${said}. `, make("button", { type: "button", onclick: () => this.choose(schedule) }, "Step through"));
  }
}

/* The lines `orders N`, `outcome C alike A obeyed O decisions D ..` and, for each round of it, `round R ENTRY ..`. */
function read(text) {
  const found = { orders: "", outcomes: [] };
  for (const line of text.trim().split("\n")) {
    const [kind, ...words] = line.split(" ");
    if (kind === "orders") found.orders = words.join(" ");
    if (kind === "outcome") found.outcomes.push({ count: words[0], alike: words[2], obeyed: words[4], decisions: words.slice(6), schedule: "" });
    if (kind === "round") found.outcomes.at(-1).schedule += `${words.slice(1).join(" ")}\n`;
  }
  return found;
}
