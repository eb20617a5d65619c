// The page: what is shown at a step, and how a reader goes from one to another.

// What comes next, in words; at the end nothing does.
function toldNext(turn) {
    if (!turn) return [term.words.length ? "the run has come to its value" : "the run has ended", ""];
    const rule = turn[2] < 0 ? "wrong " + -turn[2] + " ends the run" : run.rules[turn[2]];
    return [rule, run.classes[turn[3]]];
}

// The letters of the text, line by line.
const letters = (run.text || "").split("\n").map((line) => Array.from(line));

// Where the text of a node ends that starts at a line and a column: behind its last bracket, or behind its name.
function endOf(line, column) {
    let depth = 0;
    for (let [at, from] = [line, column]; at < letters.length; at++, from = 0) {
        for (let index = from; index < letters[at].length && letters[at][index] !== ";"; index++) {
            const letter = letters[at][index];
            if ("({".includes(letter)) depth++;
            if (")}".includes(letter) && --depth <= 0) return [at, depth < 0 ? index : index + 1];
            const next = letters[at][index + 1];
            if (!depth && (next === undefined || " \t\r(){};".includes(next))) return [at, index + 1];
        }
    }
    return [letters.length - 1, letters[letters.length - 1].length];
}

// The text from one place to another.
function between([line, column], [toLine, toColumn]) {
    const some = letters.slice(line, toLine + 1).map((list, at) => {
        return list.slice(at ? 0 : column, line + at === toLine ? toColumn : list.length).join("");
    });
    return some.join("\n");
}

// Marks in the recipe's text where the node in turn comes from.
function drawText(turn) {
    if (run.text === null) return;
    const at = turn ? term.origins[turn[0]] - 4 : -1;
    const known = at >= 0 && at < lines.length;
    byId("from").textContent = known ? "line " + lines[at] + ", column " + columns[at] : "";
    const whole = [letters.length - 1, letters[letters.length - 1].length];
    if (!known) {
        byId("text").replaceChildren(between([0, 0], whole));
        return;
    }
    const from = [lines[at] - 1, columns[at] - 1];
    const to = endOf(...from);
    byId("text").replaceChildren(between([0, 0], from), element("mark", "", between(from, to)), between(to, whole));
    seen(byId("text"), byId("text").querySelector("mark"));
}

// Shows the term after so many steps.
function show(step) {
    goTo(Math.min(last, Math.max(0, step)));
    opened = new Set();
    const turn = nextStep();
    const [rule, counted] = toldNext(turn);
    byId("step").textContent = term.step.toLocaleString("en");
    byId("slider").value = term.step;
    byId("slider").setAttribute("aria-valuetext", "step " + term.step + " of " + last);
    byId("size").textContent = count(term.words.length, "word");
    byId("rule").textContent = rule;
    byId("class").textContent = counted;
    byId("class").className = turn ? "class class" + turn[3] : "";
    run.classes.forEach((name, at) => (byId("count" + at).textContent = counts[at][term.step].toLocaleString("en")));
    byId("first").disabled = byId("back").disabled = term.step === 0;
    byId("forward").disabled = byId("last").disabled = term.step === last;
    drawTree();
    seen(byId("tree"), byId("tree").querySelector(".turn"));
    seen(byId("flat"), byId("flat").querySelector("mark"));
    drawText(turn);
    plots.forEach(drawCursor);
    history.replaceState(null, "", "#" + term.step);
}

// Keys that go to another step, wherever the reader is but in the slider, which has its own.
function keyed(event) {
    const to = { ArrowLeft: term.step - 1, ArrowRight: term.step + 1, Home: 0, End: last }[event.key];
    if (to === undefined || event.target.id === "slider" || event.altKey || event.ctrlKey || event.metaKey) return;
    event.preventDefault();
    show(to);
}

// Makes everything that the reader can use go to its step.
function listen() {
    byId("first").addEventListener("click", () => show(0));
    byId("back").addEventListener("click", () => show(term.step - 1));
    byId("forward").addEventListener("click", () => show(term.step + 1));
    byId("last").addEventListener("click", () => show(last));
    byId("slider").addEventListener("input", (event) => show(Number(event.target.value)));
    byId("all").addEventListener("change", drawTree);
    document.addEventListener("keydown", keyed);
    for (const plot of plots) {
        const go = (event) => event.buttons & 1 && show(stepAt(plot, event.clientX));
        plot.svg.addEventListener("pointerdown", go);
        plot.svg.addEventListener("pointermove", go);
    }
    window.addEventListener("resize", () => plots.forEach(drawPlot));
    window.addEventListener("hashchange", () => show(Number(location.hash.slice(1)) || 0));
}

byId("slider").max = last;
byId("of").textContent = "of " + last.toLocaleString("en");
byId("source").hidden = run.text === null;
byId("main").classList.toggle("textless", run.text === null);
plots.forEach(drawPlot);
listen();
show(Number(location.hash.slice(1)) || 0);
