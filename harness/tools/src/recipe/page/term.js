"use strict";
// Terms: the words of each step by the changes, the nodes that they are, and their text.

const byId = (id) => document.getElementById(id);
const run = JSON.parse(byId("run").textContent);
const kinds = new Map(run.kinds.map(([number, sort, name, heads, parts]) => [number, { sort, name, heads, parts }]));
const last = run.steps.length;

// A number of things.
function count(number, what) {
    return number.toLocaleString("en") + " " + what + (number === 1 ? "" : "s");
}

// The two halves of a list of pairs.
function halves(pairs) {
    const [ones, others] = [[], []];
    pairs.forEach((number, at) => (at % 2 ? others : ones).push(number));
    return [ones, others];
}

const [lines, columns] = halves(run.positions);
const [firstWords, firstOrigins] = halves(run.first);

// The term at the step that it is at, its words and where each comes from, and what the steps so far have removed.
const term = { step: 0, words: firstWords, origins: firstOrigins, removed: [] };

// A list with some of its items replaced.
function replaced(list, place, count, items) {
    return list.slice(0, place).concat(items, list.slice(place + count));
}

// The words that a step puts in, and where each comes from.
function put(pieces, words, origins) {
    const [some, sources] = [[], []];
    for (let at = 0; at < pieces.length; at += 2) {
        const [one, two] = [pieces[at], pieces[at + 1]];
        if (one >= 0) {
            some.push(one);
            sources.push(two);
        } else {
            for (let from = -1 - one; from < two - 1 - one; from++) {
                some.push(words[from]);
                sources.push(origins[from]);
            }
        }
    }
    return [some, sources];
}

// How many words a step puts in.
function putCount(pieces) {
    let count = 0;
    for (let at = 0; at < pieces.length; at += 2) {
        count += pieces[at] >= 0 ? 1 : pieces[at + 1];
    }
    return count;
}

// Makes the next step. A step whose rule is under 0 ends the run with that code: no word is left.
function forwards() {
    const [place, size, rule, , pieces] = run.steps[term.step];
    const [from, count] = rule < 0 ? [0, term.words.length] : [place, size];
    const words = term.words.slice(from, from + count);
    const origins = term.origins.slice(from, from + count);
    const [some, sources] = put(pieces, words, origins);
    term.removed.push({ from, count: some.length, words, origins });
    term.words = replaced(term.words, from, count, some);
    term.origins = replaced(term.origins, from, count, sources);
    term.step++;
}

// Takes the last step back.
function backwards() {
    const { from, count, words, origins } = term.removed.pop();
    term.words = replaced(term.words, from, count, words);
    term.origins = replaced(term.origins, from, count, origins);
    term.step--;
}

// Goes to a step, forwards or backwards.
function goTo(step) {
    while (term.step < step) forwards();
    while (term.step > step) backwards();
}

// The step that comes next, as far as one does.
function nextStep() {
    return term.step < last ? run.steps[term.step] : run.next;
}

// A name with the first number behind it that makes it free; v and digits would be a variable by its number.
function free(base, used, taken) {
    if (!used.has(base)) return base;
    for (let number = Math.max(1, taken); ; number++) {
        const name = base === "v" ? base + "_" + number : base + number;
        if (!used.has(name)) return name;
    }
}

// A lambda's argument: the name that the text gives, or x, y, z, x1 .. by how many lambdas are around; none that is in use.
function argument(place, scope) {
    const depth = scope ? scope.depth + 1 : 0;
    const base = run.names[term.origins[place]] || "xyz"[depth % 3] + (Math.floor(depth / 3) || "");
    const used = new Set();
    let taken = 0;
    for (let around = scope; around; around = around.up) {
        used.add(around.name);
        taken += around.base === base ? 1 : 0;
    }
    return { name: free(base, used, taken), base, depth, up: scope };
}

// The name of a variable: that of its lambda, which so many others stand between.
function variable(node) {
    let scope = node.scope;
    for (let between = node.operand; scope && between > 0; between--) scope = scope.up;
    return scope ? scope.name : "v" + node.operand;
}

// The nodes of the term, by the places of their first words, and of each whether it is nil or conses that end in it. Terms nest
// too deep for a function that calls itself.
function nodes() {
    const found = [];
    const open = [];
    term.words.forEach((word, place) => {
        const around = open[open.length - 1];
        const kind = kinds.get(word % 256);
        const scope = around ? around.inner : null;
        const node = { place, kind, operand: Math.floor(word / 256), parts: [], size: 1, scope, inner: scope };
        if (kind.name === "lambda") node.inner = argument(place, scope);
        if (around) around.parts.push(place);
        found.push(node);
        open.push(node);
        while (open.length && open[open.length - 1].parts.length === open[open.length - 1].kind.parts.length) {
            const closed = open.pop();
            closed.size = place + 1 - closed.place;
        }
    });
    for (let place = found.length - 1; place >= 0; place--) {
        const { kind, parts } = found[place];
        found[place].ends = kind.name === "nil" || (kind.name === "cons" && found[parts[1]].ends);
    }
    return found;
}

// The items of a list: those of its conses, where they end in nil; else nothing.
function items(found, node) {
    if (node.kind.name !== "cons" || !node.ends) return null;
    const list = [];
    for (let rest = node; rest.kind.name === "cons"; rest = found[rest.parts[1]]) list.push(rest.parts[0]);
    return list;
}

// What a node is called, with what belongs to it beside its parts: an operand, an argument's name.
function called(node) {
    const { kind, operand } = node;
    const name = kind.heads[Math.min(operand, kind.heads.length - 1)];
    switch (kind.name) {
        case "variable": return variable(node);
        case "number": return String(operand);
        case "L": return operand ? name + operand : name;
        case "wrong": return name + " " + operand;
        default: return name;
    }
}

// A lambda's argument and term in pieces: in ML the argument has its type.
function bound({ inner, parts }) {
    const body = parts[parts.length - 1];
    const type = parts.length > 1 ? [" ", parts[0]] : [];
    return [" (" + inner.name, ...type, ") ", body];
}

// A node's text in pieces: texts, and the places of its parts.
function pieces(found, node) {
    const { kind, parts } = node;
    const list = items(found, node);
    if (list) return ["{", ...list.flatMap((item, at) => (at ? [" ", item] : [item])), "}"];
    if (kind.name === "lambda") return ["(", called(node), ...bound(node), ")"];
    if (kind.name === "list") return ["{", parts[0], "}"];
    if (kind.name === "function") return ["(", parts[0], " to ", parts[1], ")"];
    if (!parts.length && kind.name !== "wrong") return [called(node)];
    return ["(" + called(node), ...parts.flatMap((part) => [" ", part]), ")"];
}

// The text of the node at a place, in three: before the node that is marked, that one, and behind it.
function flat(found, place, marked) {
    const texts = ["", "", ""];
    let at = 0;
    const due = [place];
    while (due.length) {
        const item = due.pop();
        if (item === null) {
            texts[at] += "]]";
            at = 2;
        } else if (typeof item === "string") {
            texts[at] += item;
        } else {
            if (item === marked) {
                at = 1;
                texts[at] += "[[";
                due.push(null);
            }
            due.push(...pieces(found, found[item]).reverse());
        }
    }
    return texts;
}
