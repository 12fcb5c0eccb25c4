/* Asks the server, which has the proved program answer. */

const LOST = "The laboratory does not answer. What you typed is kept.";
const MOST_ATTEMPTS = 5;
const PATIENCE = 30000; // milliseconds for an answer

const pause = (seconds) => new Promise((done) => setTimeout(done, 1000 * seconds));

/* Returns {ok, text} or, if there is no answer, {ok: false, lost, why}. An answer that refuses something has `refused`. */
export async function ask(command, request) {
  for (let attempt = 1; ; attempt += 1) {
    let answer;
    try {
      const how = { method: "POST", headers: { "Content-Type": "application/json" }, signal: AbortSignal.timeout(PATIENCE) };
      answer = await fetch(`api/${command}`, { ...how, body: JSON.stringify(request) });
      if (answer.status === 503 && attempt < MOST_ATTEMPTS) {
        await pause((Number(answer.headers.get("Retry-After")) || 1) * (0.5 + Math.random()));
        continue;
      }
      const text = await answer.text();
      if (!answer.ok) return { ok: false, lost: answer.status === 503, why: reason(text, answer.status) };
      if (answer.headers.get("Byzlab-Status") === "0") return { ok: true, text };
      return { ok: false, ...refusal(text) };
    } catch {
      return { ok: false, lost: true, why: LOST };
    }
  }
}

function reason(text, status) {
  try {
    return JSON.parse(text).error;
  } catch {
    return `The server answered with status ${status}.`;
  }
}

/* The objects of an answer in JSON, one for each line. */
export const objects = (text) => text.trim().split("\n").map((line) => JSON.parse(line));

/* What the program says about a text that it refuses: an object, or lines of text. */
function refusal(text) {
  if (!text.startsWith("{")) return { refused: true, text, why: text.trim() };
  const [object] = objects(text);
  const { code, fault, place = "", traitor } = object;
  const said = object.why?.sentence ?? object.sentence;
  const where = `${code ?? fault} ${place}`.trim();
  return { refused: true, object, traitor, why: `${said ? capital(said) : "The program rejects this campaign"} (${where}).` };
}

/* Begins a sentence with a capital letter, unless a register is its first word. */
export const capital = (sentence) => (/^r\d/.test(sentence) ? sentence : sentence[0].toUpperCase() + sentence.slice(1));
