// The term as a tree: rows one below the other, those of a node's parts further in.

const SHORT = 24; // letters of a node that stands in one row
const SMALL = 24; // words that such a node has at most
const NEAR = 7; // levels that are open below the way to the node in turn
const FEW = 12; // words of a node that is not folded, however far from the way it is
const LARGE = 200; // words of a node beside the way that is folded
const IN = 10; // levels that the node in turn is set in at most; rows that would stand left of the edge stand at it
const MOST_IN = 24; // levels that any row is set in at most

// The nodes that the reader has opened at this step, by their places.
let opened = new Set();

// Whether a node is the one in turn or has it inside.
function onWay(node, turn) {
    return Boolean(turn) && node.place <= turn[0] && turn[0] < node.place + node.size;
}

// The parts of a node that have rows of their own: of a list its items, of another node its terms.
function below(found, node) {
    return items(found, node) || node.parts.filter((part, at) => node.kind.parts[at] !== "T");
}

// How a node stands in the tree: in one row, folded, or open with its parts below.
function standing(found, node, turn, away) {
    if (!below(found, node).length) return "whole";
    if (onWay(node, turn)) return "open";
    if (node.size <= SMALL && flat(found, node.place)[0].length <= SHORT) return "whole";
    const fold = (away > NEAR && node.size > FEW) || node.size > LARGE;
    return !fold || byId("all").checked || opened.has(node.place) ? "open" : "folded";
}

// The rows of the tree, from the root on.
function rows(found, turn) {
    const list = [];
    const due = [{ place: 0, level: 1, away: 0 }];
    while (due.length) {
        const { place, level, away } = due.pop();
        const node = found[place];
        const how = standing(found, node, turn, away);
        list.push({ node, level, how, label: label(found, node, how) });
        if (how !== "open") continue;
        const further = onWay(node, turn) && place !== turn[0] ? 0 : away + 1;
        below(found, node).reverse().forEach((part) => due.push({ place: part, level: level + 1, away: further }));
    }
    return list;
}

// What stands in a row: a small node whole, of another its name and its types, of a list how many items it has.
function label(found, node, how) {
    if (how === "whole") return flat(found, node.place)[0];
    const list = items(found, node);
    if (list) return "{ } " + count(list.length, "item");
    const types = node.parts.filter((part, at) => node.kind.parts[at] === "T").map((part) => flat(found, part)[0]);
    if (node.kind.name === "lambda") return called(node) + " (" + [node.inner.name, ...types].join(" ") + ")";
    return [called(node), ...types].join(" ");
}

// An element with a class and a text.
function element(name, kind, text) {
    const made = document.createElement(name);
    made.className = kind;
    if (text !== undefined) made.textContent = text;
    return made;
}

// The button that folds a node, or opens it.
function folder(row) {
    const button = element("button", "fold", row.how === "folded" ? "▸" : "▾");
    button.title = (row.how === "folded" ? "open these " : "fold these ") + count(row.node.size, "word");
    button.setAttribute("aria-label", button.title);
    button.addEventListener("click", () => {
        if (!opened.delete(row.node.place)) opened.add(row.node.place);
        drawTree();
    });
    return button;
}

// A row as an element; the node in turn is marked, and what it is counted as told beside it.
function drawnRow(row, turn, made, out) {
    const { node, level, how } = row;
    const line = element("div", "row " + (node.kind.sort === "S" ? "scheme" : "ml"));
    line.setAttribute("role", "treeitem");
    line.setAttribute("aria-level", level);
    line.style.setProperty("--level", Math.min(Math.max(level - out, 1), MOST_IN) - 1);
    if (out) line.append(element("span", "level", level));
    line.dataset.place = node.place;
    const inside = (place, size) => place <= node.place && node.place < place + size;
    if (made && inside(made.from, made.count)) line.classList.add("made");
    if (turn && inside(turn[0], turn[1])) line.classList.add("inside");
    if (how === "folded" || (how === "open" && opened.has(node.place))) line.append(folder(row));
    line.append(element("code", "", row.label));
    if (how === "folded") {
        line.setAttribute("aria-expanded", "false");
        line.append(element("span", "much", "… " + count(node.size, "word")));
    }
    if (turn && turn[0] === node.place) {
        line.classList.add("turn");
        line.setAttribute("aria-current", "step");
        line.append(element("span", "class class" + turn[3], run.classes[turn[3]] + " comes next"));
    }
    return line;
}

// Draws the tree and the text of the term; after an error there is none.
function drawTree() {
    const [tree, text] = [byId("tree"), byId("flat")];
    const turn = nextStep();
    if (!term.words.length) {
        tree.replaceChildren(element("p", "none", "No term is left: the run has ended with an error."));
        text.replaceChildren();
        return;
    }
    const found = nodes();
    const made = term.removed[term.removed.length - 1];
    const list = rows(found, turn);
    const inTurn = list.find(({ node }) => turn && node.place === turn[0]);
    const out = inTurn ? Math.max(0, inTurn.level - IN) : 0;
    tree.replaceChildren(...list.map((row) => drawnRow(row, turn, made, out)));
    const [before, marked, behind] = flat(found, 0, turn ? turn[0] : undefined);
    text.replaceChildren(before, ...(turn ? [element("mark", "", marked)] : []), behind);
}

// Moves a part of the page so that what is marked in it is seen.
function seen(box, inner) {
    if (!inner) return;
    const [outside, mark] = [box.getBoundingClientRect(), inner.getBoundingClientRect()];
    if (mark.top < outside.top) box.scrollTop += mark.top - outside.top - 24;
    if (mark.bottom > outside.bottom) box.scrollTop += Math.min(mark.bottom - outside.bottom + 48, mark.top - outside.top - 24);
}
