/* The editor of a traitor's program: assembly with line numbers, checked as one types. */
import { $, later, make } from "./dom.js";
import { ask, capital, objects } from "./server.js";

const WAIT = 300; // milliseconds after the last key

export class Editor {
  /* `typed` is called with the general and his text after each key, `changed` when nothing has been typed for a moment, and
     `checked` with a text and what the program says about it. */
  constructor(changed, typed, checked) {
    this.general = null;
    this.checked = checked;
    this.fault = null; // {line, sentence, more} of a refused program
    const soon = later(WAIT, () => {
      this.check();
      changed();
    });
    $("program").addEventListener("input", () => {
      typed(this.general, $("program").value);
      this.number();
      soon();
    });
    $("program").addEventListener("scroll", () => this.place());
    for (const event of ["keyup", "click", "focus"]) $("program").addEventListener(event, () => this.place());
    $("close").addEventListener("click", () => this.close());
    $("apply").addEventListener("click", () => this.apply());
  }

  open(general, text) {
    this.general = general;
    $("whose").textContent = `The program of general ${general}`;
    $("program").value = text;
    $("editor").hidden = false;
    this.fault = null;
    this.number();
    this.check();
    $("editor").scrollIntoView({ block: "nearest" });
    $("program").focus({ preventScroll: true });
  }

  close() {
    this.general = null;
    $("editor").hidden = true;
  }

  number() {
    const count = $("program").value.split("\n").length;
    const numbers = Array.from({ length: count }, (_, at) => (this.fault?.line === at + 1 ? make("b", {}, `${at + 1}`) : `${at + 1}`));
    $("lines").replaceChildren(...numbers.flatMap((number) => [number, "\n"]));
    this.place();
  }

  /* Puts the explanation under the line at fault, or above it while the cursor is in a line that it would cover. */
  place() {
    $("lines").scrollTop = $("program").scrollTop;
    $("under").hidden = !this.fault?.line;
    if (!this.fault?.line) return;
    const style = getComputedStyle($("program"));
    const [height, start] = [parseFloat(style.lineHeight), parseFloat(style.paddingTop) - $("program").scrollTop];
    const covered = Math.ceil($("under").offsetHeight / height);
    const cursor = $("program").value.slice(0, $("program").selectionStart).split("\n").length;
    const isAbove = cursor > this.fault.line && cursor <= this.fault.line + covered && this.fault.line > covered;
    $("under").classList.toggle("above", isAbove);
    $("under").style.top = `${start + height * this.fault.line - (isAbove ? height + $("under").offsetHeight : 0)}px`;
  }

  /* Makes the edit that the program's help describes. */
  apply() {
    const lines = $("program").value.split("\n");
    lines.splice(this.edit.line - 1, this.edit.removed, ...this.edit.added);
    $("program").value = lines.join("\n");
    $("apply").hidden = true;
    $("program").dispatchEvent(new Event("input"));
    $("program").focus({ preventScroll: true });
  }

  async check() {
    const text = $("program").value;
    const answer = await ask("check", { text });
    if (this.general === null || text !== $("program").value) return;
    const said = answer.ok ? accepted(objects(answer.text)) : answer.object ? refused(answer.object) : { verdict: answer.why, fault: null, facts: [] };
    this.fault = said.fault;
    $("verdict").textContent = said.verdict;
    this.checked(text, said.verdict);
    $("verdict").classList.toggle("refused", !answer.ok);
    $("program").setAttribute("aria-invalid", String(!answer.ok));
    this.edit = said.edit ? editIn(text.split("\n"), said.edit, said.facts) : null;
    $("apply").hidden = this.edit === null;
    $("facts").hidden = said.facts.length === 0;
    $("facts").lastElementChild.textContent = said.facts.map(spelled).join("\n");
    const more = (said.fault?.more ?? []).map((line) => make("span", {}, line));
    $("under").replaceChildren(...(said.fault ? [make("b", {}, said.fault.sentence), ...more] : []));
    this.number();
  }
}

/* An edit of the program's help as an edit of lines, or null. Facts say which line a unit has. A line with a name is left to the
   writer. */
function editIn(lines, { unit, instructions, instead }, facts) {
  const line = facts.find((fact) => fact.unit === unit)?.source_line;
  if (!line || /^\s*\w+:/.test(lines[line - 1])) return null;
  const indent = /^\s*/.exec(lines[line - 1])[0];
  return { line, removed: Number(instead), added: instructions.map((instruction) => indent + instruction) };
}

/* What is known at an instruction, as a line. */
function spelled({ unit, place, instruction, reads, gives }) {
  const given = gives.length ? ` -> ${gives.join(" ; ")}` : "";
  return `${unit}${place ? ` (${place})` : ""} ${[instruction, ...reads].join(" ; ")}${given}`;
}

function accepted(lines) {
  const count = lines.find(({ line }) => line === "accepted").instructions;
  const verdict = count === 1 ? "Accepted: 1 instruction." : `Accepted: ${count} instructions.`;
  return { verdict, fault: null, facts: lines.filter(({ line }) => line === "instruction") };
}

/* What the program says about a program that it rejects: the line at fault, the sentence, notes, and a help with its edit. */
function refused({ code, line_number, sentence, help, edit, why, notes = [], facts = [] }) {
  const line = line_number ?? why?.source_line ?? 0;
  const said = why?.sentence ?? sentence;
  const shown = said ? capital(said) : `The program is rejected by ${code}.`;
  const more = [...notes.map((note) => `note: ${note}`), ...(help ? [`help: ${help}`] : [])];
  const verdict = [`${line ? `Line ${line}: ` : ""}${shown} (${code})`, ...more].join("\n");
  return { verdict, fault: { line, sentence: shown, more }, facts, edit };
}
