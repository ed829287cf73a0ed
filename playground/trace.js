// The lines of `trace`, read into a tree of search nodes, and its picture: from left to right by the number of actions, a
// row for each arrival, and from each search node first the branches that end.
"use strict";

const MOST_DRAWN = 400;

// The search nodes, each with its label and the arrivals from it. One that is entered again shows its arrivals again.
function traceOf(lines) {
  const nodes = [];
  let isPrunedAtOnce = false, plan = null;
  const arrive = (from, kind, action, to) => {
    const node = nodes[from];
    if (!node.arrivals.some(it => it.action === action)) node.arrivals.push({kind, action, to});
  };
  for (const line of lines) {
    let m;
    if (line === "; pruned") isPrunedAtOnce = true;
    else if (line === "; kept 0") nodes.push({from: null, action: null, arrivals: []});
    else if ((m = line.match(/^; label (.*)/))) nodes.at(-1).label = m[1];
    else if ((m = line.match(/^; kept (\d+) (\d+) (.*)/))) {
      arrive(m[2], "kept", m[3], nodes.length);
      nodes.push({from: Number(m[2]), action: m[3], arrivals: []});
    }
    else if ((m = line.match(/^; seen (\d+) (\d+) (.*)/))) arrive(m[2], "seen", m[3], Number(m[1]));
    else if ((m = line.match(/^; pruned (\d+) (.*)/))) arrive(m[1], "pruned", m[2], null);
    else if (line.startsWith("; plan of ")) plan = [];
    else if (line.startsWith("(")) plan.push(line);
  }
  return {nodes, isPrunedAtOnce, ...planIn(nodes, plan)};
}

// The search nodes and the arrivals of the plan, and the search node at which it ends, where there is a plan.
function planIn(nodes, plan) {
  const planNodes = new Set(), planArrivals = new Set();
  if (plan === null) return {planNodes, planArrivals, last: null};
  let last = 0;
  planNodes.add(last);
  for (const action of plan) {
    const arrival = nodes[last].arrivals.find(it => it.action === action);
    planArrivals.add(arrival);
    planNodes.add(last = arrival.to);
  }
  return {planNodes, planArrivals, last};
}

function arrivalsIn({nodes}) {
  const count = kind => nodes.reduce((sum, node) => sum + node.arrivals.filter(it => it.kind === kind).length, 0);
  return {kept: count("kept"), seen: count("seen"), pruned: count("pruned")};
}

// What the picture shows, each with its row and layer: search nodes, and the ends of branches that are pruned or lead back.
function placed({nodes, planNodes, planArrivals, last}) {
  const items = [], widths = [];
  let row = 0;
  const place = (number, layer, parent, arrival) => {
    const item = {kind: "kept", number, layer, row, parent, arrival, isLast: number === last, isInPlan: planNodes.has(number)};
    items.push(item);
    const ends = nodes[number].arrivals.filter(it => it.kind !== "kept");
    const goesOn = nodes[number].arrivals.filter(it => it.kind === "kept");
    [...ends, ...goesOn].forEach((it, i) => {
      if (i > 0) row += 1;
      widths[layer + 1] = Math.max(widths[layer + 1] ?? 0, it.action.length);
      if (it.kind === "kept") place(it.to, layer + 1, item, it);
      else items.push({kind: it.kind, number: it.to, layer: layer + 1, row, parent: item, arrival: it, isInPlan: planArrivals.has(it)});
    });
  };
  place(0, 0, null, null);
  return {items, widths, rows: row + 1};
}

const ROW = 30, RADIUS = 11, LETTER = 7.3, MARGIN = 18;

function pictureOf(trace) {
  const {items, widths, rows} = placed(trace);
  const xs = [MARGIN];
  for (let layer = 1; layer < widths.length; layer++) xs.push(xs.at(-1) + widths[layer] * LETTER + 2 * RADIUS + 26);
  const x = item => xs[item.layer], y = item => MARGIN + item.row * ROW;
  const counts = arrivalsIn(trace);
  const picture = draw("svg", {
    class: "picture", width: xs.at(-1) + 2 * MARGIN, height: rows * ROW + MARGIN, role: "img",
    "aria-label": `The search as a tree of ${counted(trace.nodes.length, "search node")}, with ${counts.pruned} branches pruned `
      + `and ${counts.seen} that lead back. The list of search nodes below says the same.`,
  });
  // Edges first, so that nodes cover their ends; the plan's last, so that no other edge covers them.
  const isBold = item => trace.planArrivals.has(item.arrival);
  const edges = items.filter(it => it.parent).sort((a, b) => isBold(a) - isBold(b));
  for (const item of edges) picture.append(edgeOf(item, isBold(item), x, y));
  for (const item of items) picture.append(nodeOf(item, x(item), y(item), trace));
  return picture;
}

function edgeOf(item, isBold, x, y) {
  const from = item.parent, [left, top, right, line] = [x(from), y(from), x(item), y(item)];
  const path = line === top ? `M${left + RADIUS} ${top}H${right - RADIUS}` : `M${left} ${top + RADIUS}V${line}H${right - RADIUS}`;
  return draw("g", {class: `edge ${item.kind}${isBold ? " in-plan" : ""}`},
    draw("path", {d: path}),
    draw("text", {x: left + RADIUS + 8, y: line - 5}, item.arrival.action));
}

function nodeOf(item, x, y, {nodes}) {
  const group = draw("g", {class: `node ${item.kind}${item.isInPlan ? " in-plan" : ""}`});
  if (item.kind === "pruned") {
    group.append(draw("path", {d: `M${x - 9} ${y}l9 -9l9 9l-9 9z`}), draw("path", {d: `M${x - 3} ${y - 3}l6 6m0 -6l-6 6`}));
    group.append(draw("title", {}, "pruned: false is left of the control formula"));
    return group;
  }
  group.append(draw("circle", {cx: x, cy: y, r: RADIUS}));
  if (item.isLast) group.append(draw("circle", {cx: x, cy: y, r: RADIUS + 4, class: "around"}));
  group.append(draw("text", {x, y: y + 4}, String(item.number)));
  const label = `search node ${item.number}: ${nodes[item.number].label}`;
  group.append(draw("title", {}, item.kind === "seen" ? `leads back to ${label}` : label));
  group.addEventListener("click", () => showNode(item.number));
  return group;
}

function showNode(number) {
  const entry = document.getElementById(`node-${number}`);
  entry.querySelector("details").open = true;
  entry.scrollIntoView({block: "center"});
  entry.querySelector("summary").focus({preventScroll: true});
}

// The search nodes in their order, each with what is left of the control formula and where its actions lead.
function nodeElement(trace, number) {
  const node = trace.nodes[number];
  const how = node.from === null ? "the first state" : ["from ", String(node.from), " by ", make("code", {}, node.action)];
  const label = make("details", {}, make("summary", {}, `What is left at ${number}`));
  const before = node.from === null ? null : trace.nodes[node.from].label;
  label.addEventListener("toggle", () => {
    if (label.open && label.children.length === 1) label.append(labelElement(node.label, before));
  });
  const element = make("li", {id: `node-${number}`}, make("strong", {}, `Search node ${number}`), ", ", ...[how].flat(), label);
  for (const [kind, say] of [["kept", "goes on to"], ["seen", "leads back to"], ["pruned", "pruned:"]]) {
    const found = node.arrivals.filter(it => it.kind === kind);
    if (found.length === 0) continue;
    const line = make("p", {class: `arrivals ${kind}`}, `${kind === "pruned" ? "✕ " : ""}${say} `);
    found.forEach((it, i) => line.append(i ? ", " : "", kind === "pruned" ? "" : `${it.to} by `, make("code", {}, it.action)));
    element.append(line);
  }
  return element;
}
