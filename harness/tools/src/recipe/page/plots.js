// The plots: the words of the term, and the counts of the steps, over the steps.

const PAD = { left: 52, right: 14, top: 10, bottom: 22 };

// Of each step, the words of the term and the counts up to it.
function series() {
    const sizes = [firstWords.length];
    const counts = run.classes.map(() => [0]);
    run.steps.forEach(([, size, rule, counted, pieces], at) => {
        sizes.push(rule < 0 ? 0 : sizes[at] - size + putCount(pieces));
        counts.forEach((list, of) => list.push(list[at] + (of === counted ? 1 : 0)));
    });
    return { sizes, counts };
}

const { sizes, counts } = series();
const plots = [
    { id: "sizes", what: "words of the term", lists: [{ name: "words", values: sizes, kind: "size" }] },
    {
        id: "counts", what: "steps counted",
        lists: run.classes.map((name, at) => ({ name: name + "s", values: counts[at], kind: "class" + at })),
    },
];

// An element of a drawing.
function drawn(plot, name, attributes, text) {
    const made = document.createElementNS(plot.svg.namespaceURI, name);
    Object.entries(attributes).forEach(([key, value]) => made.setAttribute(key, value));
    if (text !== undefined) made.textContent = text;
    plot.svg.append(made);
    return made;
}

// A round number at the top of a plot.
function top(values) {
    const most = Math.max(1, values.reduce((a, b) => Math.max(a, b), 0));
    const unit = 10 ** Math.floor(Math.log10(most));
    const rounds = [1, 1.5, 2, 3, 4, 5, 6, 8, 10].map((factor) => factor * unit);
    return rounds.find((round) => round >= most && Number.isInteger(round));
}

// Where a step and a value are drawn.
function place(plot, step, value) {
    const { width, height } = plot;
    const across = width - PAD.left - PAD.right;
    const up = height - PAD.top - PAD.bottom;
    return [PAD.left + (across * step) / Math.max(1, last), height - PAD.bottom - (up * value) / plot.most];
}

// Lines across at the bottom, in the middle and at the top, and the first and the last step.
function drawAxes(plot) {
    for (const value of [0, plot.most / 2, plot.most]) {
        const [x, y] = place(plot, 0, value);
        drawn(plot, "line", { class: "grid", x1: x, x2: plot.width - PAD.right, y1: y, y2: y });
        if (Number.isInteger(value)) {
            drawn(plot, "text", { x: x - 6, y: y + 4, "text-anchor": "end" }, value.toLocaleString("en"));
        }
    }
    drawn(plot, "text", { x: PAD.left, y: plot.height - 5 }, "step 0");
    const end = { x: plot.width - PAD.right, y: plot.height - 5, "text-anchor": "end" };
    if (last) drawn(plot, "text", end, last.toLocaleString("en"));
}

// Draws a plot anew, as wide as it stands on the page.
function drawPlot(plot) {
    plot.svg = byId(plot.id);
    plot.width = plot.svg.clientWidth || 300;
    plot.height = plot.svg.clientHeight || 140;
    plot.most = top(plot.lists.flatMap(({ values }) => values));
    plot.svg.replaceChildren();
    drawAxes(plot);
    for (const { values, kind } of plot.lists) {
        const points = values.map((value, step) => place(plot, step, value).map((at) => at.toFixed(1)).join(" "));
        drawn(plot, "path", { class: "line " + kind, d: "M" + points.join("L") });
    }
    plot.cursor = drawn(plot, "line", { class: "cursor", y1: PAD.top, y2: plot.height - PAD.bottom });
    plot.dots = plot.lists.map(({ kind }) => drawn(plot, "circle", { class: "dot " + kind, r: 4 }));
    drawCursor(plot);
}

// Puts the cursor at the step shown, and tells the values there.
function drawCursor(plot) {
    plot.lists.forEach(({ values }, at) => {
        const [x, y] = place(plot, term.step, values[term.step]);
        [["cx", x], ["cy", y]].forEach(([key, value]) => plot.dots[at].setAttribute(key, value));
        [["x1", x], ["x2", x]].forEach(([key, value]) => plot.cursor.setAttribute(key, value));
    });
    const told = plot.lists.map(({ name, values }) => values[term.step].toLocaleString("en") + " " + name);
    plot.svg.setAttribute("aria-label", plot.what + " over the steps; at step " + term.step + ": " + told.join(", "));
}

// The step that is nearest to a place in a plot.
function stepAt(plot, x) {
    const across = plot.width - PAD.left - PAD.right;
    const step = Math.round(((x - plot.svg.getBoundingClientRect().left - PAD.left) / across) * last);
    return Math.min(last, Math.max(0, step));
}
