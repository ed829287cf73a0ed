// Formulas as the program prints them, read into trees and laid out in lines.
"use strict";

const WIDTH = 64;
const WORDS = /^(true|false|not|and|or|next|always|eventually|until|within|for|forall|exists|goal)$/;

// A tree is a word or a list of trees.
function treeOf(text) {
  const open = [[]];
  for (const token of text.match(/[()]|[^\s()]+/g) ?? []) {
    if (token === "(") open.push([]);
    else if (token === ")") { const list = open.pop(); open.at(-1).push(list); }
    else open.at(-1).push(token);
  }
  return open[0][0];
}

function textOf(tree) {
  return typeof tree === "string" ? tree : `(${tree.map(textOf).join(" ")})`;
}

// The formulas that have to hold together.
function partsOf(text) {
  const tree = treeOf(text);
  if (tree === "true") return [];
  return (tree[0] === "and" ? tree.slice(1) : [tree]).map(textOf);
}

// How many parts stand on the first line after the word: the variables and bound of a quantifier, the number of `within`.
const BESIDE = {forall: 2, exists: 2, within: 1, for: 1, not: 1, always: 1, next: 1, eventually: 1};

function laidOut(tree, indent = 0) {
  const whole = textOf(tree);
  if (typeof tree === "string" || indent + whole.length <= WIDTH) return whole;
  const beside = 1 + (BESIDE[tree[0]] ?? 0);
  const first = tree.slice(0, beside);
  const last = first.length > 1 ? first.pop() : null;
  let text = `(${first.map(textOf).join(" ")}`;
  if (last !== null) text += " " + laidOut(last, indent + text.length + 1);
  for (const part of tree.slice(beside)) text += `\n${" ".repeat(indent + 1)}${laidOut(part, indent + 1)}`;
  return text + ")";
}

// The formula in an element, its reserved words in bold.
function formulaElement(text) {
  const element = make("code", {class: "formula"});
  for (const piece of laidOut(treeOf(text)).split(/([^\s()]+)/)) {
    element.append(WORDS.test(piece) ? make("b", {}, piece) : piece);
  }
  return element;
}

// What is left of the control formula, part by part; `before` is what was left one action earlier, or null.
function labelElement(text, before) {
  if (text === "false") {
    const more = before === "false" ? ", as before" : ": no run that goes on from here satisfies the control formula";
    return make("p", {class: "false"}, `✕ false${more}`);
  }
  if (text === "long") return make("p", {}, "longer than 10,000 bytes, and not printed");
  const parts = partsOf(text);
  const known = before === null || before === "long" ? null : partsOf(before);
  const list = make("ul", {class: "parts"});
  for (const part of parts) list.append(partElement(part, known));
  for (const part of known ?? []) {
    if (part === "false" || parts.includes(part)) continue;
    list.append(make("li", {class: "gone"}, make("span", {class: "mark"}, "gone"), shortElement(part)));
  }
  if (parts.length === 0) list.prepend(make("li", {}, "true: nothing more is asked for"));
  return list;
}

function partElement(part, known) {
  if (known === null) return make("li", {}, formulaElement(part));
  if (known.includes(part)) return make("li", {class: "same"}, make("span", {class: "mark"}, "as before"), shortElement(part));
  return make("li", {class: "new"}, make("span", {class: "mark"}, "new"), formulaElement(part));
}

function shortElement(part) {
  return make("code", {class: "short", title: part}, part);
}
