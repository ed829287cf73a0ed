// What the program answers, in words.
"use strict";

const COMMANDS = {
  plan: {does: "finds a plan", asks: ["search", "N", "B"], reads: 2},
  trace: {does: "finds a plan and shows the search", asks: ["search", "N", "B"], reads: 2},
  check: {does: "judges a plan", asks: [], reads: 3, third: "plan"},
  explain: {does: "shows what is left of the control formula along a plan", asks: [], reads: 3, third: "plan"},
  "prove-none": {does: "prints a proof that there is no plan", asks: ["N", "B"], reads: 2},
  "check-none": {does: "judges such a proof", asks: [], reads: 3, third: "proof"},
  cheapest: {does: "finds a plan of the least cost", asks: ["B"], reads: 3, third: "costs"},
  "check-loop": {does: "judges a plan with a part that is repeated for ever", asks: [], reads: 3, third: "plan"},
  sample: {does: "makes a problem of M balls, solves it and checks the plan", asks: ["M"], reads: 0},
};

const FILES = ["domain", "problem", "third"];

// What the first words of the line that decides say. Each is a pattern and the words for it.
const OUTCOMES = [
  [/^; cheapest plan of (\d+) actions costs (\d+)/, m =>
    `A plan of ${counted(m[1], "action")} that costs ${m[2]}. It is accepted, no accepted plan costs less, `
    + "and none of this cost has fewer actions."],
  [/^; plan of (\d+) actions/, (m, words) => words[1] === "depth"
    ? `A plan of ${counted(m[1], "action")}. It is accepted, and comes to no search node twice.`
    : `A plan of ${counted(m[1], "action")}. It is accepted, and no accepted plan is shorter.`],
  [/^; none within (\d+)/, m => `No plan of at most ${counted(m[1], "action")} is accepted.`],
  [/^; none$/, () => "No plan of any length is accepted."],
  [/^; spent (\d+)/, m => `More search nodes came up than the ${m[1]} that may be kept, so the search ended without an answer. `
    + "A larger B lets it go on."],
  [/^; valid for ever$/, () => "The plan is valid for ever: it can be executed, its repeated part ends where it began, the goal holds "
    + "there, and its states satisfy the control formula."],
  [/^; valid$/, () => "The plan is valid: it can be executed, reaches the goal, and its states satisfy the control formula."],
  [/^; not executable (\d+)/, m => `Action ${m[1]} of the plan cannot be executed in its turn.`],
  [/^; goal unmet$/, (m, words) => words[0] === "check-loop"
    ? "The repeated part ends where it began, and the goal does not hold there."
    : "The plan can be executed, and the goal does not hold in its last state."],
  [/^; not closed$/, () => "The plan can be executed, and its repeated part does not end where it began."],
  [/^; disobeys$/, () => "The plan can be executed and reaches the goal, and its states do not satisfy the control formula."],
  [/^; end$/, () => "What is left of the control formula in each state of the plan, which can be executed."],
  [/^\(none\)/, (m, words, lines) => `A proof of ${counted(lines.length - 1, "link")} that no plan of any length is accepted.`],
  [/^\(none-within (\d+)\)/, (m, words, lines) =>
    `A proof of ${counted(lines.length - 1, "link")} that no plan of at most ${counted(m[1], "action")} is accepted.`],
  [/^; proved none within (\d+)/, m => `The proof is right: no plan of at most ${counted(m[1], "action")} is accepted.`],
  [/^; proved none$/, () => "The proof is right: no plan of any length is accepted."],
  [/^; bad link (\d+)/, m => `Link ${m[1]} of the proof is not good.`],
  [/^; accepts (\d+)/, m => `The links are good, and search node ${m[1]} is accepted: the plan that they give for it is a plan.`],
  [/^; open (\d+) (.*)/, m => `The links are good, and ${m[2]} leads from search node ${m[1]} to one that the proof does not list.`],
  [/^; sample (\d+)/, (m, words, lines) => `A problem of ${counted(m[1], "ball")}: ${lines.slice(1).map(line => line.slice(2)).join(", ")}.`],
  [/^; range at (\d+): (.*)/, (m, words, lines) =>
    `The operation ${m[2]}, at byte ${m[1]} of the domain, is past 64 bits. It is looked at in the state ${lines[1].slice(2)}.`],
];

const FAULTS = {
  5: "A file could not be read.",
  6: "The answer could not be written whole: it has more than 128 MiB.",
  7: "Want of memory.",
  8: "The words are no command. N is 0 to 100,000, B is 1 to 100,000 and M is 1 to 100, in decimal digits.",
};

const MARKS = {yes: "✓", no: "✗", open: "…", refused: "!"};
const TONES = ["yes", "no", "open", "refused", "refused", "refused", "refused", "refused", "refused"];

function counted(number, noun) {
  return `${Number(number).toLocaleString("en")} ${noun}${Number(number) === 1 ? "" : "s"}`;
}

function linesOf(answer) {
  return answer.split("\n").slice(0, -1);
}

function isEvent(line) {
  return /^; (kept|label|seen|pruned)( |$)/.test(line);
}

// The lines from the one that decides on: after the events of a trace, and the last one of an explanation.
function decidingLines(words, lines) {
  if (words[0] === "trace") return lines.slice(lines.findIndex(line => !isEvent(line)));
  if (words[0] === "explain" && lines[0].startsWith("; state ")) return lines.slice(-1);
  return lines;
}

// Where the answer names a place: the number of the file, the offset, and the rule that is broken, if one is.
function placeIn(answer) {
  const refused = answer.match(/^; refused file (\d) rule (\d+) at (\d+)$/m);
  if (refused) return {file: Number(refused[1]), rule: refused[2], offset: Number(refused[3])};
  const range = answer.match(/^; range at (\d+):/m);
  return range ? {file: 1, offset: Number(range[1])} : null;
}

// The answer in a sentence or two.
function inWords({words, status, answer}) {
  if (status in FAULTS) return FAULTS[status];
  const lines = decidingLines(words, linesOf(answer));
  for (const [pattern, say] of OUTCOMES) {
    const found = lines[0].match(pattern);
    if (found) return say(found, words, lines);
  }
  return lines[0];
}

function refusalInWords(name, {rule, offset}, line) {
  return `${name} is refused at byte ${offset}, in line ${line}, by rule ${rule}: ${RULES[rule]}.`;
}
