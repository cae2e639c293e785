/* The hub's order, built from the calls of a sitting and their answers alone, as document 01 builds it ("The hub's order"): a list, empty
   at first, with a bar that ends the settled part. Nothing here touches the page.

   An item of the list is a routine, { id, committed, done }, or an event, { device, up, setting }. Each rule changes the order that it is
   given; `orderAfter` and `step` are what callers use. */
"use strict";

const Order = (() => {

    /* ---- A sitting beside its key ---- */

    /* Lines end with a line feed, which may be missing after the last; nothing behind the last line feed is no line. */
    function linesOf(text) {
        const lines = text.split("\n");
        if (lines[lines.length - 1] === "")
            lines.pop();
        return lines;
    }

    const isDevice = (answer) => answer.startsWith("device ");
    const isEvent = (line) => line.startsWith("F ") || line.startsWith("R ");

    /* Each line has one line of the key; a failure or a restart that aborts a routine has two, the abort first. Device lines end the key.
       Null if the key is not one of so many lines. */
    function pair(lines, key) {
        const answers = [];
        let next = 0;
        for (const line of lines) {
            const two = isEvent(line) && next < key.length && key[next].startsWith("aborted ");
            answers.push(key.slice(next, next + (two ? 2 : 1)));
            next += two ? 2 : 1;
        }
        const fits = next <= key.length && !key.slice(0, next).some(isDevice) && key.slice(next).every(isDevice);
        return fits ? { answers, devices: key.slice(next) } : null;
    }

    /* ---- The rules, in document 01's order ---- */

    const isRoutine = (item) => item.id !== undefined;

    /* Minus nothing is nothing. */
    const number = (word) => Number(word) + 0;

    /* An accepted opening begins anew: an empty list, the bar at its end. `sent` has the command last sent for each routine. */
    const opened = (devices) => ({ devices, items: [], bar: 0, sent: new Map() });

    /* A routine that calls still name is behind the bar. */
    function placeOf(order, id) {
        let place = order.bar;
        while (order.items[place].id !== id)
            place++;
        return place;
    }

    /* Aborted R: R goes, its events stay. */
    function aborted(order, id) {
        order.items.splice(placeOf(order, id), 1);
        order.sent.delete(id);
    }

    /* Placed, or an event, after X: before the next routine behind X, or last; after 0, before the first one behind the bar, or last. */
    function insert(order, item, after) {
        let place = after === 0 ? order.bar : placeOf(order, after) + 1;
        while (place < order.items.length && !isRoutine(order.items[place]))
            place++;
        order.items.splice(place, 0, item);
    }

    /* Sent for R: the list stays as it is; the command is remembered. */
    function sent(order, id, device, setting) {
        order.sent.set(id, { device, setting });
    }

    /* Done on R: R gains the command last sent for it. */
    function done(order, id) {
        order.items[placeOf(order, id)].done.push(order.sent.get(id));
    }

    /* Committed R: noted. */
    function committed(order, id) {
        order.items[placeOf(order, id)].committed = true;
        order.sent.delete(id);
    }

    /* At the call's end the bar goes before the first routine not committed, or to the end. It never goes back: the search begins there. */
    function moveBar(order) {
        while (order.bar < order.items.length && (!isRoutine(order.items[order.bar]) || order.items[order.bar].committed))
            order.bar++;
    }

    /* ---- A call and its answers ---- */

    /* One answer. All other words (refused, unread, wait, skipped, held, not held) change nothing. */
    function note(order, call, answer) {
        const [word, first, second, third] = answer.split(" ");
        switch (word) {
        case "aborted": return aborted(order, number(first));
        case "placed": return insert(order, { id: number(first), committed: false, done: [] }, number(third));
        case "down": return insert(order, { device: number(first), up: false, setting: null }, number(third));
        case "up": return insert(order, { device: number(first), up: true, setting: number(call[2]) }, number(third));
        case "send": return sent(order, number(first), number(second), number(third));
        case "done": return done(order, number(first));
        case "committed": return committed(order, number(first));
        }
    }

    /* The order after a line, from the one before it; null as long as no opening has been accepted. */
    function step(order, line, answers) {
        const call = line.split(" ");
        if (answers[0] === "opened")
            return opened(number(call[1]));
        if (order === null)
            return null;
        for (const answer of answers) // an abort comes before its event
            note(order, call, answer);
        moveBar(order);
        return order;
    }

    /* The order after the first `count` lines. */
    function orderAfter(lines, answers, count) {
        let order = null;
        for (let i = 0; i < count; i++)
            order = step(order, lines[i], answers[i]);
        return order;
    }

    /* ---- The serial run ---- */

    /* The list run from all devices up at 0: a routine sets its done commands in turn, a failure makes its device down, a restart up at the
       setting that it reports. */
    function devicesOf(order) {
        const devices = Array.from({ length: order.devices }, () => ({ up: true, setting: 0 }));
        for (const item of order.items) {
            if (isRoutine(item)) {
                for (const command of item.done)
                    devices[command.device].setting = command.setting;
            } else {
                devices[item.device] = { up: item.up, setting: item.setting };
            }
        }
        return devices;
    }

    return { linesOf, pair, isRoutine, step, orderAfter, devicesOf };
})();
