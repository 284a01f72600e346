// What the page asks the server, which is the same one that the page comes from.

// An answer that is none: a refusal changed nothing and is told beside what was tried; what is wrong otherwise is told below the page; and
// what was dropped is asked for anew, as the piece was changed.
export class Refused extends Error {}
export class Wrong extends Error {}
export class Dropped extends Error {}

const GONE = "The server of this page does not answer. Where it was ended, start it again with the script that you saved.";

async function answerOf(response) {
  const answer = await response.json();
  if (answer.refused) throw new Refused(answer.refused);
  if (answer.dropped) throw new Dropped();
  if (answer.wrong) throw new Wrong(answer.wrong);
  return answer;
}

async function sent(name, request = null) {
  const headers = {"Content-Type": "application/json"};
  try {
    return await fetch(name, request ? {method: "POST", headers, body: JSON.stringify(request)} : {});
  } catch {
    throw new Wrong(GONE);
  }
}

export async function ask(name, request) {
  return answerOf(await sent(name, request));
}

export async function piece() {
  return answerOf(await sent("piece"));
}

// A page of some bars, as SVG.
export async function page(first, last, width) {
  const response = await sent("engrave", {first, last, width});
  return response.headers.get("Content-Type") === "image/svg+xml" ? response.blob() : answerOf(response);
}

// A form of the piece, to be saved.
export async function form(name) {
  const response = await sent(name);
  return response.ok ? response.blob() : answerOf(response);
}
