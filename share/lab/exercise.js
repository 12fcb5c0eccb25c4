/* An exercise: its task, and whether the answers of the program meet its goals. */
import { $ } from "./dom.js";
import { comments } from "./setup.js";

export class Exercise {
  /* `files` are the texts of examples/exercises by name, and `tasks` is its tasks.json. */
  constructor(files, tasks) {
    this.files = files;
    this.tasks = tasks;
    this.end();
  }

  /* Returns the ending of an exercise's file, its text, and its traitors, or null if there is no such exercise. */
  find(name) {
    const file = Object.keys(this.files).find((one) => one.replace(/\.\w+$/, "") === name);
    return file === undefined ? null : { ending: file.split(".").pop(), text: this.files[file], traitors: this.own(name).traitors ?? [] };
  }

  own(name) {
    return Object.hasOwn(this.tasks, name) ? this.tasks[name] : {};
  }

  /* Shows the task of an exercise: what tasks.json says or, for a scenario, the comments at its head. */
  begin(name, text) {
    const { task = comments(text, "#"), goals = [] } = this.own(name);
    this.goals = goals.map((lines) => lines.map((line) => new RegExp(line, "m")));
    this.met = new Set();
    $("task-text").textContent = task;
    $("task").hidden = task === "";
    this.show();
  }

  end() {
    this.goals = [];
    this.met = new Set();
    $("task").hidden = true;
  }

  /* Notes which goals a text meets: those of which each pattern occurs in it. A goal that was met once stays met. */
  answered(text) {
    this.goals.forEach((patterns, at) => {
      if (patterns.every((pattern) => pattern.test(text))) this.met.add(at);
    });
    this.show();
  }

  show() {
    const [met, count] = [this.met.size, this.goals.length];
    const end = met === count ? "Solved." : count === 1 ? "Not solved yet." : `${met} of ${count} answers found.`;
    $("task-end").textContent = count ? end : "";
    $("task").classList.toggle("solved", count > 0 && met === count);
  }
}
