// The page: its files, its commands, and a run in a worker of its own.
"use strict";

const byId = id => document.getElementById(id);
const KEPT = JSON.parse(byId("kept").textContent); // the examples, their files, and the rules in words
const RULES = KEPT.rules;
const MOST_LISTED = 1000, MOST_PRINTED = 100_000; // lines or search nodes, and characters, that are shown of an answer

const files = {}; // by column: the name, and what text.js keeps of a file
let running = null; // the worker of a run, and when it began
let latest = null; // the words, the status and the answer of the latest run
let compiled = null; // the promise of the compiled module

function make(tag, attributes = {}, ...children) {
  return fill(document.createElement(tag), attributes, children);
}

function draw(tag, attributes = {}, ...children) {
  return fill(document.createElementNS("http://www.w3.org/2000/svg", tag), attributes, children);
}

function fill(element, attributes, children) {
  for (const [name, value] of Object.entries(attributes)) element.setAttribute(name, value);
  element.append(...children);
  return element;
}

// Files

function setFile(column, name, bytes) {
  files[column] = {name, ...fileOf(bytes), isEdited: false};
  byId(column).value = files[column].shown;
  byId(column).setSelectionRange(0, 0);
  byId(column).scrollTo(0, 0);
  showName(column);
  showPlace(column);
}

function showName(column) {
  byId(`${column}-name`).textContent = files[column].name + (files[column].isEdited ? ", edited" : "");
}

// Takes an edit over from the text area. The line ends that are not touched stay.
function noteEdit(column) {
  const shown = byId(column).value;
  if (shown === files[column].shown) return;
  Object.assign(files[column], edited(files[column], shown), {isEdited: true});
  showName(column);
  showPlace(column);
}

function showPlace(column) {
  const file = files[column], place = byId(column).selectionStart;
  const size = bytesOf(file).length.toLocaleString("en");
  byId(`${column}-place`).textContent =
    `line ${lineOf(file.shown, place)}, byte ${offsetOf(file, place)} of ${size}; ${endsInWords(file.ends)} line ends`;
}

// Puts the cursor on an offset of a file: on the whole word there, or on one character.
function goTo(column, offset) {
  const area = byId(column), shown = files[column].shown;
  const place = placeOf(files[column], offset);
  const word = shown.slice(place).match(/^(?:[^\s()]+|[^])?/u)[0];
  area.focus();
  area.setSelectionRange(place, place + (/^[()]/.test(word) ? 1 : word.length));
  const line = parseFloat(getComputedStyle(area).lineHeight);
  area.scrollTop = Math.max(0, (lineOf(shown, place) - 3) * line);
  area.scrollLeft = 0;
  showPlace(column);
}

async function takeFiles(list, column) {
  const taken = [];
  for (const file of list) {
    const end = file.name.split(".").pop();
    const fitting = {domain: "domain", problem: "problem", plan: "third", proof: "third", costs: "third"}[end];
    const to = list.length === 1 && column ? column : fitting ?? FILES.find(it => !taken.includes(it));
    if (!to || taken.includes(to)) continue;
    taken.push(to);
    setFile(to, file.name, new Uint8Array(await file.arrayBuffer()));
  }
  byId("example").selectedIndex = -1;
  showLine();
  forgetAnswer();
}

function save(name, bytes) {
  const link = make("a", {href: URL.createObjectURL(new Blob([bytes])), download: name});
  link.click();
  setTimeout(() => URL.revokeObjectURL(link.href), 10_000);
}

// Commands

function chosenWords() {
  const command = byId("command").value, {asks, reads} = COMMANDS[command];
  return [command, ...asks.map(it => byId(it).value), ...FILES.slice(0, reads)];
}

function showCommand() {
  const command = COMMANDS[byId("command").value];
  for (const it of ["search", "N", "B", "M"]) byId(`for-${it}`).hidden = !command.asks.includes(it);
  FILES.forEach((column, i) => {
    const isUnread = i >= command.reads;
    byId(`column-${column}`).classList.toggle("unread", isUnread);
    byId(`${column}-use`).textContent = isUnread ? "(not read)" : column === "third" ? `(${command.third})` : "";
  });
  showLine();
}

function showLine() {
  const words = chosenWords().map(it => FILES.includes(it) ? files[it].name : it);
  byId("line").textContent = ["tlplan", ...words.map(it => /^[\w./-]+$/.test(it) ? it : `'${it}'`)].join(" ");
}

function setWords(words) {
  const [command, ...rest] = words;
  byId("command").value = command;
  COMMANDS[command].asks.forEach((it, i) => { byId(it).value = rest[i]; });
  showCommand();
}

function takeExample() {
  const example = KEPT.examples[byId("example").value];
  const paths = example.words.filter(it => it in KEPT.files);
  paths[2] ??= example.third;
  if (paths[0]) FILES.forEach((column, i) => {
    if (paths[i]) setFile(column, paths[i].split("/").pop(), new TextEncoder().encode(KEPT.files[paths[i]]));
    else setFile(column, "new.plan", new Uint8Array());
  });
  setWords(example.words.filter(it => !(it in KEPT.files)));
  forgetAnswer();
}

function mayLoseEdits() {
  return !FILES.some(it => files[it]?.isEdited) || confirm("The files have edits that are not saved. Take the example all the same?");
}

// Runs

async function unpackedModule() {
  const packed = Uint8Array.from(atob(byId("module").textContent), c => c.charCodeAt(0));
  const stream = new Blob([packed]).stream().pipeThrough(new DecompressionStream("gzip"));
  return WebAssembly.compile(await new Response(stream).arrayBuffer());
}

async function run() {
  if (running) return;
  const words = chosenWords();
  const given = Object.fromEntries(FILES.map(it => [it, bytesOf(files[it])]));
  running = {began: performance.now(), worker: null};
  const mine = running;
  forgetAnswer();
  showRunning();
  let module;
  compiled ??= unpackedModule();
  try { module = await compiled; } catch (fault) { return end(mine, {fault}); }
  if (running !== mine) return;
  const source = URL.createObjectURL(new Blob([byId("worker").textContent], {type: "text/javascript"}));
  mine.worker = new Worker(source);
  URL.revokeObjectURL(source);
  mine.worker.onmessage = ({data}) => end(mine, {...data, words});
  mine.worker.onerror = event => end(mine, {fault: event.message});
  mine.worker.postMessage({module, words, files: given});
}

// Ends the worker of the run, and with it what still runs there and all its memory.
function endWorker() {
  running.worker?.terminate();
  running = null;
  showRunning();
}

function end(mine, result) {
  if (running !== mine) return;
  endWorker();
  if (result.fault !== undefined) showFault(result.fault);
  else showAnswer({...result, answer: new TextDecoder().decode(result.answer), bytes: result.answer});
}

function stop() {
  if (!running) return;
  const after = (performance.now() - running.began) / 1000;
  endWorker();
  say("open", `Stopped after ${after.toFixed(1)} seconds, without an answer.`);
}

function showRunning() {
  byId("run").setAttribute("aria-disabled", String(running !== null));
  byId("stop").disabled = running === null;
  if (running === null) return;
  say("open", "Running.");
  const mine = running;
  const tick = () => {
    if (running !== mine) return;
    byId("took").textContent = `${((performance.now() - mine.began) / 1000).toFixed(1)} s`;
    setTimeout(tick, 100);
  };
  setTimeout(tick, 300);
}

// Answers

function say(tone, text, status = "") {
  byId("status").className = tone;
  byId("mark").textContent = MARKS[tone];
  byId("status-number").textContent = status;
  byId("said").textContent = text;
  byId("took").textContent = "";
}

function forgetAnswer() {
  latest = null;
  for (const id of ["picture", "reading", "printed"]) byId(id).replaceChildren();
  for (const id of ["answer-parts", "to-third", "save-answer", "to-answer"]) byId(id).hidden = true;
  byId("status").className = "";
  byId("mark").textContent = "";
  byId("status-number").textContent = "";
  byId("said").textContent = "Not run yet.";
  byId("took").textContent = "";
}

// Whether the browser takes a module whose memory has addresses of 64 bits.
function hasLongAddresses() {
  return WebAssembly.validate(Uint8Array.of(0, 97, 115, 109, 1, 0, 0, 0, 5, 3, 1, 4, 0));
}

function showFault(fault) {
  say("refused", hasLongAddresses()
    ? `The run broke off, without an answer: ${fault}`
    : "This browser has no WebAssembly with a 64-bit memory, which the page needs. Chrome 133 and Firefox 134 have it, and later ones.");
}

function showAnswer(result) {
  latest = result;
  const {words, status, answer, took, memory} = result;
  const place = placeIn(answer), column = place && FILES[place.file - 1];
  const line = place && lineOf(files[column].shown, placeOf(files[column], place.offset));
  say(TONES[status], place?.rule ? refusalInWords(files[column].name, place, line) : inWords(result), `Status ${status}.`);
  byId("took").textContent = `${took < 10 ? took.toFixed(1) : took.toFixed(0)} ms, ${(memory / 1048576).toFixed(0)} MiB of memory`;
  showParts(words, answer);
  if (place) goTo(column, place.offset);
}

function showParts(words, answer) {
  const lines = linesOf(answer);
  for (const id of ["answer-parts", "save-answer", "to-answer"]) byId(id).hidden = answer === "";
  byId("printed").textContent = answer.slice(0, MOST_PRINTED);
  const more = answer.length - MOST_PRINTED;
  if (more > 0) byId("printed").append(`\n… ${more.toLocaleString("en")} characters more; save the answer to have all`);
  const isProof = /^\(none/.test(answer), hasPlan = /^; (cheapest )?plan of /m.test(answer);
  byId("to-third").hidden = !isProof && !hasPlan;
  byId("to-third").textContent = `Put the ${isProof ? "proof" : "plan"} into the third file, to check it`;
  if (words[0] === "trace" && isEvent(lines[0] ?? "")) showTrace(lines);
  else if (words[0] === "explain" && lines[0]?.startsWith("; state ")) showExplanation(lines);
  else if (hasPlan) byId("reading").append(planElement(lines.filter(it => it.startsWith("("))));
}

// The first of many elements, and how many are left out.
function listed(list, items, elementOf) {
  for (const item of items.slice(0, MOST_LISTED)) list.append(elementOf(item));
  const more = items.length - MOST_LISTED;
  if (more > 0) list.append(make("li", {}, `… ${more.toLocaleString("en")} more`));
  return list;
}

function planElement(actions) {
  return listed(make("ol", {class: "plan"}), actions, it => make("li", {}, make("code", {}, it)));
}

function showExplanation(lines) {
  const list = make("ol", {class: "states"});
  let before = null;
  byId("reading").append(make("h3", {}, "What is left in each state"), listed(list, lines, line => {
    const state = line.match(/^; state (\d+): (.*)/);
    if (line.startsWith("(")) return make("li", {class: "action"}, make("code", {}, line));
    if (!state) return make("li", {}, line === "; end" ? "The plan ends here." : "✕ The next action cannot be executed here.");
    const element = make("li", {}, make("strong", {}, `State ${state[1]}`), labelElement(state[2], before));
    before = state[2];
    return element;
  }));
}

function showTrace(lines) {
  const trace = traceOf(lines), {kept, seen, pruned} = arrivalsIn(trace);
  if (trace.isPrunedAtOnce) {
    byId("reading").append(make("p", {class: "false"}, "✕ Nothing but false is left of the control formula in the first state already."));
    return;
  }
  const branches = `${pruned.toLocaleString("en")} ${pruned === 1 ? "branch" : "branches"}`;
  const sum = `${counted(trace.nodes.length, "search node")} kept; ${branches} pruned, ${seen} led back to a search node that was kept already.`;
  const isSmall = kept + seen + pruned <= MOST_DRAWN;
  byId("picture").append(make("h3", {}, "The search"), make("p", {}, sum));
  const frame = {class: "scroll", tabindex: "0", role: "region", "aria-label": "Picture of the search"};
  if (isSmall) byId("picture").append(make("div", frame, pictureOf(trace)), legend());
  else byId("picture").append(make("p", {}, `A picture is drawn of at most ${MOST_DRAWN} arrivals.`));
  const numbers = trace.nodes.map((_, number) => number);
  byId("reading").append(make("h3", {}, "The search nodes"), listed(make("ul", {class: "nodes"}), numbers, it => nodeElement(trace, it)));
}

function legend() {
  return byId("legend").content.cloneNode(true);
}

function putIntoThird() {
  const isProof = latest.answer.startsWith("(none");
  setFile("third", isProof ? "answer.proof" : "answer.plan", latest.bytes);
  setWords([isProof ? "check-none" : "check"]);
  forgetAnswer();
  byId("said").textContent = `The ${isProof ? "proof" : "plan"} is the third file now. Run checks it.`;
  byId("run").focus();
}

// Wiring

function wireColumn(column) {
  const area = byId(column), input = byId(`${column}-input`);
  area.addEventListener("input", () => noteEdit(column));
  for (const event of ["keyup", "click", "focus"]) area.addEventListener(event, () => showPlace(column));
  byId(`${column}-open`).addEventListener("click", () => input.click());
  byId(`${column}-save`).addEventListener("click", () => save(files[column].name, bytesOf(files[column])));
  input.addEventListener("change", () => { takeFiles([...input.files], column); input.value = ""; });
}

// Files are dropped on a column, or anywhere, and then go by the ends of their names.
function wireDrops() {
  const hasFiles = event => event.dataTransfer.types.includes("Files");
  const columnOf = event => FILES.find(it => byId(`column-${it}`).contains(event.target));
  const mark = column => { for (const it of FILES) byId(`column-${it}`).classList.toggle("over", it === column); };
  document.addEventListener("dragover", event => {
    if (!hasFiles(event)) return;
    event.preventDefault();
    mark(columnOf(event));
  });
  document.addEventListener("dragleave", () => mark(null));
  document.addEventListener("drop", event => {
    if (!hasFiles(event)) return;
    event.preventDefault();
    mark(null);
    takeFiles([...event.dataTransfer.files], columnOf(event));
  });
}

function fillChoices() {
  KEPT.examples.forEach((example, i) => {
    let group = byId("example").lastElementChild;
    if (group?.label !== example.group) byId("example").append(group = make("optgroup", {label: example.group}));
    group.append(make("option", {value: i}, example.title));
  });
  for (const [name, {does}] of Object.entries(COMMANDS)) byId("command").append(make("option", {value: name}, `${name}: ${does}`));
}

function begin() {
  fillChoices();
  FILES.forEach(wireColumn);
  wireDrops();
  let chosen = "0";
  byId("example").addEventListener("change", () => {
    if (!mayLoseEdits()) { byId("example").value = chosen; return; }
    chosen = byId("example").value;
    takeExample();
  });
  byId("command").addEventListener("change", showCommand);
  for (const it of ["search", "N", "B", "M"]) byId(it).addEventListener("input", showLine);
  byId("run").addEventListener("click", run);
  byId("stop").addEventListener("click", stop);
  byId("to-third").addEventListener("click", putIntoThird);
  byId("save-answer").addEventListener("click", () => save("answer.plan", latest.bytes));
  document.addEventListener("keydown", event => {
    if (event.key === "Enter" && (event.ctrlKey || event.metaKey)) run();
  });
  takeExample();
  run();
}

begin();
