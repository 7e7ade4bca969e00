// The page: it ties the session to the editors, the buttons and the server.

import { showGraph, showRefusal } from "./answer.js";
import { Editor, partsOfQuery } from "./editor.js";
import { EMPTY, fragmentOf, keep, kept, sessionIn } from "./session.js";

const MOST_GRAPHS = 8;
const PAGE = Array.from(crypto.getRandomValues(new Uint8Array(16)), (byte) => byte.toString(16).padStart(2, "0")).join("");
const find = (id) => document.getElementById(id);

let words = new Set();
let examples = [];
let session = structuredClone(EMPTY);
let chosen = 0;

const queryEditor = new Editor(find("query-editor"), "query", (text) => partsOfQuery(text, words), () => {
  session.query = queryEditor.text;
  remember();
});
const graphEditor = new Editor(find("graph-editor"), "graph", () => [], () => {
  session.graphs[chosen].text = graphEditor.text;
  remember();
});

function note(text) {
  find("note").textContent = text;
}

function remember() {
  if (!keep(session)) note("The session is too large to be kept.");
}

/** A button of a row of tabs. */
function tab(text, pressed, act) {
  const button = document.createElement("button");
  button.textContent = text;
  button.setAttribute("aria-pressed", String(pressed));
  button.addEventListener("click", act);
  return button;
}

/** Shows the tabs of the graphs, and the one that is chosen. */
function showGraphs() {
  const tabs = session.graphs.map((graph, at) => tab(graph.name, at === chosen, () => choose(at)));
  if (tabs.length < MOST_GRAPHS) {
    const add = tab("+", false, addGraph);
    add.setAttribute("aria-label", "add a graph");
    tabs.push(add);
  }
  find("graph-tabs").replaceChildren(...tabs);
  find("graph-name").value = session.graphs[chosen].name;
  find("remove-graph").disabled = session.graphs.length === 1;
  graphEditor.text = session.graphs[chosen].text;
}

function choose(at) {
  chosen = at;
  showGraphs();
}

function addGraph() {
  const taken = new Set(session.graphs.map((graph) => graph.name));
  let number = 1;
  while (taken.has("g" + number)) number += 1;
  session.graphs.push({ name: "g" + number, text: '{"gcore":1,\n"nodes":[],\n"edges":[],\n"paths":[]}' });
  remember();
  choose(session.graphs.length - 1);
}

function removeGraph() {
  session.graphs.splice(chosen, 1);
  remember();
  choose(Math.min(chosen, session.graphs.length - 1));
}

/** Takes a session, and shows it. */
function take(next) {
  session = structuredClone(next);
  if (![...find("command").options].some((option) => option.value === session.command)) session.command = "run";
  find("command").value = session.command;
  queryEditor.text = session.query;
  showTitle();
  choose(0);
  remember();
}

function showTitle() {
  find("query-title").textContent = session.command === "check" ? "Certificate" : "Query";
}

/** Asks the server; the value of its answer, or an object with the reason for which there is none. */
async function ask(path, value) {
  try {
    const headers = { "Content-Type": "application/json", "X-Page": PAGE };
    const answer = await fetch(path, value === undefined ? {} : { method: "POST", headers, body: JSON.stringify(value) });
    return await answer.json();
  } catch {
    return { reason: "The server does not answer." };
  }
}

/** Clears the answer, and says what is awaited. */
function begin(text) {
  note(text);
  find("refusal").hidden = true;
  find("answer-tabs").replaceChildren();
  find("answer").replaceChildren();
  find("text").hidden = true;
  queryEditor.show(null);
  graphEditor.show(null);
}

/** Marks the part of a text that a refusal speaks of. */
function showMark(refusal) {
  if (refusal.in === "graph") choose(refusal.graph);
  const editor = { query: queryEditor, graph: graphEditor }[refusal.in];
  if (editor) editor.show(refusal.mark);
}

/** Shows the tabs of the graphs of an answer, or of the searches of a certificate, and one of them. */
function showAnswer(graphs, at, word) {
  const tabs = graphs.map((_, number) => tab(`${word} ${number + 1}`, number === at, () => showAnswer(graphs, number, word)));
  find("answer-tabs").replaceChildren(...(graphs.length > 1 ? tabs : []));
  showGraph(find("answer"), graphs[at], word === "graph");
}

/** In words how a run ended. */
function ending(answer) {
  const how = answer.killed === null ? "status " + answer.status : answer.killed;
  return `${how}, ${answer.seconds} s`;
}

function showText(answer) {
  find("out").textContent = answer.out + (answer.out_is_cut ? "\n.. cut here" : "");
  find("text").hidden = answer.out === "";
  find("text").open = answer.graphs.length === 0;
}

async function run() {
  if (find("run").disabled) return;
  begin("running ..");
  find("run").disabled = true;
  find("stop").hidden = false;
  const asked = structuredClone(session);
  const answer = await ask("run", asked);
  find("run").disabled = false;
  find("stop").hidden = true;
  if (answer.reason) {
    note(answer.reason);
    return;
  }
  note(ending(answer));
  if (answer.graphs.length) showAnswer(answer.graphs, answer.graphs.length - 1, asked.command === "cert" ? "search" : "graph");
  showText(answer);
  if (answer.refusal) {
    showRefusal(find("refusal"), answer.refusal);
    showMark(answer.refusal);
  }
}

async function look() {
  const name = session.graphs[chosen].name;
  begin("drawing ..");
  const answer = await ask("look", { text: session.graphs[chosen].text });
  note(answer.reason ?? "graph " + name);
  if (!answer.reason) showGraph(find("answer"), answer, false);
}

/** Puts the session into the address of the page, and shows it. */
function link() {
  const fragment = fragmentOf(session);
  if (fragment === null) {
    note("The session is too large for a link.");
    return;
  }
  history.replaceState(null, "", fragment);
  find("link-text").value = location.href;
  find("link-text").hidden = false;
  find("link-text").select();
}

/** Fills the menu of examples, by section. */
function fillExamples() {
  const groups = new Map();
  examples.forEach((example, at) => {
    if (!groups.has(example.section)) {
      const group = document.createElement("optgroup");
      group.label = example.section;
      groups.set(example.section, group);
    }
    groups.get(example.section).append(new Option(example.name, at));
  });
  find("examples").append(...groups.values());
}

function takeExample() {
  const example = examples[Number(find("examples").value)];
  if (find("examples").value === "" || !example) return;
  take({ command: "run", query: example.query, graphs: example.graphs });
  begin("");
}

function listen() {
  find("run").addEventListener("click", run);
  find("stop").addEventListener("click", () => ask("stop", {}));
  find("look").addEventListener("click", look);
  find("link").addEventListener("click", link);
  find("remove-graph").addEventListener("click", removeGraph);
  find("examples").addEventListener("change", takeExample);
  find("command").addEventListener("change", () => {
    session.command = find("command").value;
    showTitle();
    remember();
  });
  find("graph-name").addEventListener("input", () => {
    session.graphs[chosen].name = find("graph-name").value;
    find("graph-tabs").children[chosen].textContent = session.graphs[chosen].name;
    remember();
  });
  document.addEventListener("keydown", (event) => {
    if (event.key === "Enter" && (event.ctrlKey || event.metaKey)) run();
  });
  window.addEventListener("hashchange", () => take(sessionIn(location.hash) ?? session));
}

async function start() {
  const told = await ask("start");
  if (told.reason) {
    note(told.reason);
    return;
  }
  words = new Set(told.words);
  examples = told.examples;
  for (const command of told.commands) find("command").append(new Option(command));
  fillExamples();
  listen();
  take(sessionIn(location.hash) ?? kept() ?? EMPTY);
  document.body.dataset.ready = "yes";
}

start();
