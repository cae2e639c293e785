/* The page: asks the server for the key of the text, shows it line by line, and at the chosen line the hub's order. What is shown goes in
   as text, never as markup. Without scripts the form itself posts the text, and the server's page has the key alone. */
"use strict";

(() => {
    const LIMIT = 1 << 20;        // bytes that the server takes
    const MOST_ROWS = 20000;      // rows that the table gains at once; a button brings more
    const CHUNK = 200;            // rows that stand in one body of the table: one out of sight costs nothing
    const SETTLED_SHOWN = 30;     // items of a settled part that is longer
    const CHARACTERS_SHOWN = 200; // of a line
    const PAGE = 15;              // lines that Page Up and Page Down pass over
    const PATIENCE = 60000;       // milliseconds for an answer

    const at = (id) => document.getElementById(id);
    const sitting = at("sitting"), table = at("rows");

    let shown = null;    // the sitting and the key on the page, see `show`
    let asked = 0;       // how many keys were asked for: only the last one's answer is shown
    let file = "sitting.txt";

    function make(tag, name, ...content) {
        const element = document.createElement(tag);
        if (name)
            element.className = name;
        element.append(...content);
        return element;
    }

    const counted = (count, word) => `${count} ${word}${count === 1 ? "" : "s"}`;

    /* ---- Asking ---- */

    function complain(text) {
        at("alert").textContent = text;
    }

    function refusedBy(status) {
        switch (status) {
        case 413: return "The sitting is longer than 1 MiB, the most that the server takes. plot_hub FILE prints the key of a longer one.";
        case 503: return "The server has no room for this now. Your text is still here: ask again in a moment.";
        default: return `The server answered with status ${status}, and no key. Your text is still here.`;
        }
    }

    /* The key's bytes as the server sent them; null if there is none, and then the alert says why. */
    async function fetchKey(text) {
        try {
            const answer = await fetch("/key.txt", {
                method: "POST", body: new TextEncoder().encode(text), headers: { "Content-Type": "text/plain; charset=utf-8" },
                cache: "no-store", signal: AbortSignal.timeout(PATIENCE),
            });
            if (answer.ok)
                return new Uint8Array(await answer.arrayBuffer());
            complain(refusedBy(answer.status));
        } catch {
            complain("The server does not answer. Your text is still here: ask again when the server runs.");
        }
        return null;
    }

    async function ask() {
        const number = ++asked, text = sitting.value;
        complain("");
        document.body.setAttribute("aria-busy", "true");
        const key = await fetchKey(text);
        if (number !== asked)
            return;
        document.body.removeAttribute("aria-busy");
        if (key !== null)
            show(text, key);
    }

    /* ---- The key, line by line ---- */

    function show(text, key) {
        const lines = Order.linesOf(text), words = new TextDecoder().decode(key);
        const pairs = Order.pair(lines, Order.linesOf(words));
        showText(words);
        shown = null;
        at("result").hidden = at("panel").hidden = pairs === null;
        if (pairs === null) { // the server was sent what a text area can't hold
            complain("This key cannot be set beside the text line by line. Show the key again for the text as it stands.");
            return;
        }
        shown = {
            text, key, lines, answers: pairs.answers, devices: pairs.devices,
            rows: 0, wanted: 0,       // rows in the table, and rows that come into it
            chosen: 0, marked: null,  // the chosen line and its row
            order: null, stepped: 0,  // the order after so many lines
        };
        table.querySelectorAll(".lines").forEach((body) => body.remove());
        at("calls").open = false;
        at("summary").textContent = summary();
        table.setAttribute("aria-rowcount", 1 + lines.length + shown.devices.length);
        markStale();
        moreRows();
        choose(Math.min(lines.length, shown.wanted));
        if (at("result").getBoundingClientRect().top > innerHeight * 0.8)
            at("result").scrollIntoView();
    }

    /* The whole key, byte for byte, in the element that the server's own page has for it. */
    function showText(words) {
        if (at("key") === null) {
            const title = make("h2", ""), key = make("pre", "");
            title.id = "key-title";
            key.id = "key";
            key.tabIndex = 0;
            key.setAttribute("role", "region");
            key.setAttribute("aria-labelledby", "key-title");
            at("served").append(title, key);
        }
        at("key-title").textContent = "The key as text";
        at("key").textContent = words;
    }

    function summary() {
        const starting = (word) => shown.answers.filter((answers) => answers[0].split(" ")[0] === word).length;
        return `${counted(shown.lines.length, "line")}: ${starting("unread")} unread, ${starting("refused")} refused`;
    }

    /* Rows come in chunks, with pauses between, so that the page goes on answering while a long sitting is put in. */
    function moreRows() {
        shown.wanted = Math.min(shown.lines.length, shown.rows + MOST_ROWS);
        addEnds();
        addChunk();
        addChunksLater(shown);
    }

    function addChunk() {
        const end = Math.min(shown.wanted, shown.rows + CHUNK), body = make("tbody", shown.rows === 0 ? "lines" : "lines far");
        body.setAttribute("role", "rowgroup");
        while (shown.rows < end)
            body.append(makeRow(shown.rows++));
        at("ends").before(body);
        markChosen();
    }

    function addChunksLater(of) {
        setTimeout(() => {
            if (of !== shown || of.rows === of.wanted) // another key is shown by now, or all is there
                return;
            addChunk();
            addChunksLater(of);
        });
    }

    function addEnds() {
        const left = shown.lines.length - shown.wanted;
        at("more").hidden = left === 0;
        at("left").textContent = `${counted(left, "more line")}; the key as text below has all of them.`;
        const first = shown.lines.length + 1;
        at("ends").replaceChildren(...(left === 0 ? shown.devices : []).map((line, i) => makeCells(first + i, "end", [""], [line], [])));
    }

    function makeCells(place, number, line, answers, notes) {
        const row = make("tr", "", make("td", "number", number), make("td", "line", ...line),
            make("td", "answers", ...answers.map((answer) => make("div", "", answer))), make("td", "notes", ...notes));
        row.setAttribute("role", "row");
        row.setAttribute("aria-rowindex", place + 1); // the head is the first
        for (const cell of row.cells)
            cell.setAttribute("role", "gridcell");
        return row;
    }

    function makeRow(index) {
        const line = shown.lines[index], answers = shown.answers[index];
        const word = answers[0].split(" ")[0], marked = word === "unread" || word === "refused";
        const notes = answers.map((answer) => make("div", "", noteOf(index, answer)));
        if (marked)
            notes[0].prepend(make("strong", "", word === "unread" ? "Unread" : "Refused"), ": ");
        const row = makeCells(index + 1, String(index + 1), visible(line), answers, notes);
        row.id = `line-${index + 1}`;
        row.className = marked ? word : "";
        row.dataset.line = index + 1;
        row.setAttribute("aria-selected", "false");
        return row;
    }

    function noteOf(index, answer) {
        if (answer !== "unread")
            return Reasons.meaningOf(answer);
        return Reasons.whyUnread(new TextEncoder().encode(shown.lines[index]), isOpenBefore(index)) ?? "";
    }

    /* Whether an opening was accepted before the line. */
    function isOpenBefore(index) {
        shown.firstOpened ??= shown.answers.findIndex((answers) => answers[0] === "opened");
        return shown.firstOpened >= 0 && shown.firstOpened < index;
    }

    /* ---- What can't be seen in a line, made visible: in the row only, never in what is saved ---- */

    const UNSEEN = /^ +| +$| {2,}|[^\x20-\x7e]/gu;

    function visible(line) {
        const cut = line.slice(0, CHARACTERS_SHOWN), parts = [];
        let from = 0;
        for (const found of cut.matchAll(UNSEEN)) {
            parts.push(cut.slice(from, found.index), make("span", "mark", picture(found[0])));
            from = found.index + found[0].length;
        }
        parts.push(cut.slice(from));
        if (line.length > cut.length)
            parts.push(make("span", "mark", `… ${counted(line.length - cut.length, "more character")}`));
        return parts.filter((part) => part !== "");
    }

    /* A dot for a space, a sign for a carriage return, bytes for other characters that have no shape of their own. */
    function picture(found) {
        if (found[0] === " ")
            return "·".repeat(found.length);
        if (found === "\r")
            return "␍";
        if (/^[\p{L}\p{N}\p{P}\p{S}]$/u.test(found))
            return found;
        return Array.from(new TextEncoder().encode(found), (byte) => "\\x" + byte.toString(16).padStart(2, "0")).join("");
    }

    /* ---- The chosen line ---- */

    function choose(line) {
        shown.chosen = line;
        markChosen();
        showPanel();
    }

    function markChosen() {
        const row = at(`line-${shown.chosen}`); // none as long as its chunk is not put in
        shown.marked?.setAttribute("aria-selected", "false");
        row?.setAttribute("aria-selected", "true");
        shown.marked = row;
        if (row)
            table.setAttribute("aria-activedescendant", row.id);
        else
            table.removeAttribute("aria-activedescendant");
    }

    function orderAt(line) {
        if (line < shown.stepped) {
            shown.stepped = 0;
            shown.order = null;
        }
        for (; shown.stepped < line; shown.stepped++)
            shown.order = Order.step(shown.order, shown.lines[shown.stepped], shown.answers[shown.stepped]);
        return shown.order;
    }

    function showPanel() {
        const line = shown.chosen, order = orderAt(line);
        at("panel").hidden = line === 0;
        if (line === 0)
            return;
        at("panel-title").replaceChildren(`After line ${line} `, make("code", "", ...visible(shown.lines[line - 1])));
        const nodes = order === null ? [make("p", "", "No hub has been opened yet.")] : orderNodes(order, SETTLED_SHOWN);
        at("order").replaceChildren(...nodes);
        at("devices").replaceChildren(...(order === null ? [] : deviceNodes(Order.devicesOf(order))));
    }

    /* The settled part, the bar, and what is open. Of a long settled part the last items, and a button for the others. */
    function orderNodes(order, most) {
        const from = Math.max(0, order.bar - most), earlier = [];
        if (from > 0) {
            const button = make("button", "", `Show ${counted(from, "earlier item")}`);
            button.type = "button";
            button.addEventListener("click", () => at("order").replaceChildren(...orderNodes(order, Infinity)));
            earlier.push(button);
        }
        const bar = make("div", "bar", make("span", "", "bar"));
        bar.setAttribute("role", "separator");
        bar.setAttribute("aria-label", "The bar: the settled part ends here");
        return [make("h3", "", "Settled"), ...earlier, itemList("settled", order.items.slice(from, order.bar)), bar,
            make("h3", "", "Open"), itemList("open", order.items.slice(order.bar))];
    }

    function itemList(name, items) {
        if (items.length === 0)
            return make("p", `nothing ${name}`, "nothing");
        return make("ol", name, ...items.map((item) => (Order.isRoutine(item) ? routineNode(item) : eventNode(item))));
    }

    function routineNode({ id, committed, done }) {
        const state = committed ? "committed" : "running";
        const commands = done.map(({ device, setting }) => make("li", "", `device ${device} = ${setting}`));
        return make("li", `routine ${state}`, make("span", "name", `Routine ${id}`), " ", make("span", "badge", state),
            done.length > 0 ? make("ul", "done", ...commands) : make("p", "done", "nothing done"));
    }

    const eventNode = ({ device, up, setting }) =>
        make("li", up ? "event up" : "event down", up ? `▲ up device ${device} at ${setting}` : `▼ down device ${device}`);

    function deviceNodes(devices) {
        const row = ({ up, setting }, device) => {
            const words = [String(device), up ? "up" : "down", up ? String(setting) : "–"];
            return make("tr", up ? "" : "down", ...words.map((word) => make("td", "", word)));
        };
        const head = make("tr", "", ...["Device", "State", "Setting"].map((name) => make("th", "", name)));
        for (const cell of head.cells)
            cell.scope = "col";
        return [make("h3", "", "Devices"), make("table", "", make("thead", "", head), make("tbody", "", ...devices.map(row)))];
    }

    /* ---- Keys and clicks on the rows ---- */

    function lineByKey(key) {
        switch (key) {
        case "ArrowDown": return shown.chosen + 1;
        case "ArrowUp": return shown.chosen - 1;
        case "PageDown": return shown.chosen + PAGE;
        case "PageUp": return shown.chosen - PAGE;
        case "Home": return 1;
        case "End": return shown.wanted;
        default: return null;
        }
    }

    table.addEventListener("keydown", (event) => {
        const line = shown === null || event.altKey || event.ctrlKey || event.metaKey ? null : lineByKey(event.key);
        if (line === null || shown.wanted === 0)
            return;
        event.preventDefault();
        choose(Math.min(Math.max(line, 1), shown.wanted));
        at(`line-${shown.chosen}`)?.scrollIntoView({ block: "nearest" });
    });

    table.addEventListener("click", (event) => {
        const row = event.target.closest(".lines tr");
        if (row)
            choose(Number(row.dataset.line));
    });

    at("show-more").addEventListener("click", moreRows);

    /* ---- Editing again ---- */

    const STALE = "The text has changed since: these are the lines and the key of the text before. Show the key again.";

    function markStale() {
        const note = shown !== null && sitting.value !== shown.text ? STALE : "";
        if (at("stale").textContent !== note) // told once, not with every letter
            at("stale").textContent = note;
    }

    sitting.addEventListener("input", markStale);

    sitting.addEventListener("keydown", (event) => {
        if (event.key === "Enter" && (event.ctrlKey || event.metaKey))
            ask();
    });

    at("form").addEventListener("submit", (event) => {
        event.preventDefault();
        ask();
    });

    /* ---- Files ---- */

    /* Why the text area has other bytes than the file. */
    function unfaithful(bytes) {
        const causes = [];
        if (bytes.includes(13))
            causes.push("carriage returns");
        if (new TextDecoder("utf-8", { ignoreBOM: true }).decode(bytes).includes("\ufffd"))
            causes.push("bytes that are not UTF-8");
        return causes.length > 0 ? causes.join(" and ") : "characters";
    }

    const isSame = (a, b) => a.length === b.length && a.every((byte, i) => byte === b[i]);

    async function open(chosen) {
        complain("");
        at("notice").textContent = "";
        if (chosen.size > LIMIT) {
            complain(`${chosen.name} is longer than 1 MiB, the most that the server takes. plot_hub FILE prints its key.`);
            return;
        }
        const bytes = new Uint8Array(await chosen.arrayBuffer());
        sitting.value = new TextDecoder("utf-8", { ignoreBOM: true }).decode(bytes);
        file = chosen.name;
        if (!isSame(bytes, new TextEncoder().encode(sitting.value)))
            at("notice").textContent = `${file} has ${unfaithful(bytes)}, which a text area cannot hold. The text here is without them, `
                + "and the key shown is that of this text; the key of the file itself is what plot_hub FILE prints.";
        ask();
    }

    at("file").addEventListener("change", (event) => {
        const [chosen] = event.target.files;
        if (chosen)
            open(chosen).catch(() => complain(`${chosen.name} cannot be read.`));
        event.target.value = ""; // so that the same file can be opened again
    });

    function save(name, bytes) {
        const link = make("a", "");
        link.href = URL.createObjectURL(new Blob([bytes], { type: "application/octet-stream" }));
        link.download = name;
        link.click();
        setTimeout(() => URL.revokeObjectURL(link.href), PATIENCE);
    }

    at("save-sitting").addEventListener("click", () => save(file, new TextEncoder().encode(sitting.value)));
    at("save-key").addEventListener("click", () => save(file.replace(/(\.[^.]*)?$/, ".key"), shown.key));

    /* ---- Printing: all rows that are wanted have to be there ---- */

    addEventListener("beforeprint", () => {
        while (shown !== null && shown.rows < shown.wanted)
            addChunk();
    });
    at("print").addEventListener("click", () => print());

    /* ---- At the start ---- */

    for (const element of document.querySelectorAll("[data-scripted]"))
        element.hidden = false;
    document.body.classList.add("scripted");
    if (at("key") !== null) // the server's page has a key: it is that of the text as served, whatever the browser has restored since
        show(sitting.defaultValue, new TextEncoder().encode(at("key").textContent));
})();
