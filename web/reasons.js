/* Why a line is unread, what a refusal's number means, and what the other answers say. Nothing here touches the page. */
"use strict";

const Reasons = (() => {

    /* ---- Why a line is unread: the first of these that is so. A line is its bytes, without byte 10. ---- */

    const LONGEST = 128;
    const SPACE = 32, CARRIAGE_RETURN = 13, LAST_CHARACTER = 126;

    /* Words behind the call's letter; `S` has threes of them. */
    const WORDS = { O: 3, N: 1, D: 1, B: 1, C: 1, F: 1, R: 2 };

    const BYTE = [0, 255], ID = [0, 4294967295], SETTING = [-32768, 32767];
    const WIDTHS = { O: [BYTE, BYTE, ID], S: [BYTE, BYTE, SETTING], N: [ID], D: [ID], B: [ID], C: [ID], F: [BYTE], R: [BYTE, SETTING] };

    /* The letter and the words behind it, once the bytes are known to be plain characters. */
    function split(line) {
        const [letter, ...words] = String.fromCharCode(...line).split(" ");
        return { letter, words };
    }

    const isCall = (letter) => letter.length === 1 && "OSNDBCFR".includes(letter);
    const isTooFew = ({ letter, words }) => (letter === "S" ? words.length % 3 !== 0 : words.length < WORDS[letter]);
    const isTooMany = ({ letter, words }) => letter !== "S" && words.length > WORDS[letter];
    const isNumber = (word) => /^-?[0-9]+$/.test(word);

    /* Inside its width: a minus stands before a setting only. */
    function isInside(word, [least, most]) {
        return Number(word) >= least && Number(word) <= most && (least < 0 || !word.startsWith("-"));
    }

    function isInsideAll({ letter, words }) {
        const widths = WIDTHS[letter];
        return words.every((word, i) => isInside(word, widths[i % widths.length]));
    }

    const BYTES = [
        ["longer than 128 bytes", (line) => line.length > LONGEST],
        ["an empty line", (line) => line.length === 0],
        ["a carriage return", (line) => line.includes(CARRIAGE_RETURN)],
        ["a character that no line has, such as a tab or an accented letter", (line) => line.some((b) => b < SPACE || b > LAST_CHARACTER)],
        ["a space at its end", (line) => line[line.length - 1] === SPACE],
        ["a space at its start", (line) => line[0] === SPACE],
        ["two spaces together", (line) => line.some((b, i) => b === SPACE && line[i + 1] === SPACE)],
    ];

    const SHAPES = [
        ["a lower-case letter for the call", ({ letter }) => letter.length === 1 && "osndbcfr".includes(letter)],
        ["no call of that name", ({ letter }) => !isCall(letter)],
        ["too few words", isTooFew],
        ["too many words", isTooMany],
        ["a word that is no number", ({ words }) => !words.every(isNumber)],
        ["a number outside its width", (call) => !isInsideAll(call)],
    ];

    const NO_HUB = "no hub yet";

    /* Null if the line is read: it is a call, and a hub is open or it is an opening. */
    function whyUnread(line, open) {
        const found = BYTES.find(([, holds]) => holds(line));
        if (found)
            return found[0];
        const call = split(line);
        const shape = SHAPES.find(([, holds]) => holds(call));
        if (shape)
            return shape[0];
        return open || call.letter === "O" ? null : NO_HUB;
    }

    /* ---- What a refusal's number means ---- */

    const REFUSALS = {
        1: "a hub has 1 to 32 devices",
        2: "the pass limit is at most 8",
        3: "the first id may not be 0",
        4: "a routine has 1 to 8 commands",
        5: "the hub has no such device",
        6: "a setting is from −1000 to 1000",
        7: "a tag is 0, 1 or 2",
        8: "sixteen routines are held, the most there can be",
        9: "the last id, 4294967295, has been given away",
        10: "no routine with this id is running",
        11: "its command in flight has not been reported on",
        12: "it has no command in flight",
        13: "a report is done or failed, nothing else",
        14: "the hub has no such device",
        15: "the device is down already",
        16: "the device is not down",
        17: "a setting is from −1000 to 1000",
        22: "a condition needs a command directly behind it, and no other condition",
    };

    function refusal([number, index]) {
        const cause = REFUSALS[number] ?? "a number that this page does not know";
        return index === undefined ? cause : `command ${index}: ${cause}`;
    }

    /* ---- What the other answers say ---- */

    const behind = (id) => (id === "0" ? "in the settled part" : `behind routine ${id}`);

    /* `back`, a count, and then device and setting for each. */
    function putBack(words) {
        const backs = [];
        for (let i = 2; i + 1 < words.length; i += 2)
            backs.push(`device ${words[i]} to ${words[i + 1]}`);
        return backs.length === 0 ? "nothing is put back" : "put back: " + backs.join(", ");
    }

    const MEANINGS = {
        opened: () => "a new hub, all devices up at 0",
        placed: ([id, , after]) => `routine ${id} stands ` + (after === "0" ? "first behind the bar" : `directly after routine ${after}`),
        wait: ([id, , on]) => `routine ${id} waits for routine ${on}`,
        send: ([id, device, setting]) => `routine ${id} sends device ${device} = ${setting}`,
        held: ([id]) => `routine ${id}: the condition holds`,
        not: ([, id]) => `routine ${id}: the condition does not hold, its command will be skipped`,
        done: ([id]) => `routine ${id}: what it sent is done`,
        skipped: ([id, ...back]) => `routine ${id}: a command is skipped` + (back.length > 0 ? "; " + putBack(back) : ""),
        committed: ([id]) => `routine ${id} has committed`,
        aborted: ([id, ...back]) => `routine ${id} is aborted; ` + putBack(back),
        down: ([device, , after]) => `device ${device} failed; noted ${behind(after)}`,
        up: ([device, , after]) => `device ${device} works again; noted ${behind(after)}`,
        refused: refusal,
    };

    /* The meaning of an answer; none for a word that has none. */
    function meaningOf(answer) {
        const [word, ...words] = answer.split(" ");
        return Object.hasOwn(MEANINGS, word) ? MEANINGS[word](words) : "";
    }

    return { whyUnread, meaningOf };
})();
