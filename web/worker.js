"use strict";
// Works on a recording beside the page: finds its form, makes calls of the program, and reads its lines.

// The most octets that the program reads.
const MOST = 16777216;
// The octets of a beginning that are enough to find the form.
const BEGINNING = 1048576;
// The most rows of a table on the page.
const ROWS = 1000;
// Bits of a data unit that are examined for bit errors: its sync, 63 bits of its NID, and its codewords.
const EXAMINED = { hdu: 759, ldu1: 383, ldu2: 383, tdu: 111, tdulc: 399 };
const EXAMINED_OF_PACKET = 111;
const EXAMINED_OF_BLOCK = 196;
const TURNS = ["", "-p", "-s", "-p -s", "-l", "-p -l", "-s -l", "-p -s -l"];
const FORMS = ["octets", "digits", "bits", "dibits"];

let program = null;

// Returns the octet that each octet becomes after the turns of p25-octets: polarity, the two bits of a dibit, the order of the
// dibits.
function tableOf(turns) {
    const table = new Uint8Array(256);
    for (let octet = 0; octet < 256; octet++) {
        let dibits = [6, 4, 2, 0].map((shift) => (octet >> shift) & 3);
        if (turns.includes("-s")) dibits = dibits.map((it) => (it >> 1) | ((it & 1) << 1));
        if (turns.includes("-p")) dibits = dibits.map((it) => it ^ 2);
        if (turns.includes("-l")) dibits.reverse();
        table[octet] = (dibits[0] << 6) | (dibits[1] << 4) | (dibits[2] << 2) | dibits[3];
    }
    return table;
}

// Returns the recording in octets, of a file in a form, or null if the file cannot be of this form.
function octetsOf(data, form, most) {
    if (form === "octets") return data.slice(0, most);
    const bits = form === "bits" ? 1 : 2;
    const out = new Uint8Array(Math.min(most, Math.ceil((data.length * bits) / 8)));
    let held = 0, count = 0, at = 0;
    for (let i = 0; i < data.length && at < out.length; i++) {
        let value = data[i];
        if (form === "dibits") value &= 3;
        else if (value === 32 || (value >= 9 && value <= 13)) continue;
        else if (value < 48 || value > (form === "bits" ? 49 : 51)) return null;
        else value -= 48;
        held = (held << bits) | value;
        count += bits;
        if (count === 8) {
            out[at++] = held & 255;
            held = count = 0;
        }
    }
    return out.subarray(0, at);
}

function turned(octets, turns) {
    if (!turns) return octets;
    const table = tableOf(turns.split(" "));
    return octets.map((it) => table[it]);
}

function isText(data) {
    return data.subarray(0, 65536).every((it) => (it >= 32 && it < 127) || it === 9 || it === 10 || it === 13);
}

// Makes one call of the program. Returns its output in chunks, its status and the line of its outcome.
function call(words, octets, progress) {
    const chunks = [];
    let at = 0, word = "", memory = null, told = -1;
    const page = {
        read(to, most) {
            const count = Math.min(most, octets.length - at);
            new Uint8Array(memory.buffer, to, count).set(octets.subarray(at, at + count));
            at += count;
            const now = Math.floor((at * 100) / Math.max(1, octets.length));
            if (progress && now > told) progress((told = now));
            return count;
        },
        write(from, count) {
            chunks.push(new Uint8Array(memory.buffer, from, count).slice());
        },
        tell(from, count) {
            word = new TextDecoder().decode(new Uint8Array(memory.buffer, from, count).slice());
        },
    };
    const { exports } = new WebAssembly.Instance(program, { page });
    memory = exports.memory;
    const text = new TextEncoder().encode(words.join("\0") + "\0\0");
    new Uint8Array(memory.buffer, exports.words(), text.length).set(text);
    return { status: exports.p25(), chunks, word };
}

function linesOf(chunks) {
    const decoder = new TextDecoder();
    let rest = "";
    const lines = [];
    for (const chunk of chunks) {
        const parts = (rest + decoder.decode(chunk, { stream: true })).split("\n");
        rest = parts.pop();
        for (const it of parts) lines.push(it);
    }
    return lines;
}

// Returns how many units are found in a recording, and how many syncs that begin none.
function countOf(octets) {
    const lines = linesOf(call(["check"], octets).chunks);
    const count = { units: 0, broken: 0, others: 0 };
    for (const line of lines) {
        if (line.startsWith("broken ")) count.broken++;
        else if (line.startsWith("nounit ") && line.includes("field=duid")) count.others++;
        else if (line.startsWith("check ")) count.units = Number(/units=(\d+)/.exec(line)[1]);
    }
    return count;
}

// Returns the form with the most units, as p25-guess finds it, of a beginning of the file.
function formOf(data) {
    let best = null;
    const text = isText(data);
    for (const form of FORMS) {
        const most = form === "octets" ? BEGINNING : form === "bits" ? 8 * BEGINNING : 4 * BEGINNING;
        const begin = data.subarray(0, most);
        if (form === "dibits" && text && !octetsOf(begin, "digits", BEGINNING)) continue;
        const octets = octetsOf(begin, form, BEGINNING);
        if (!octets) continue;
        for (const turns of TURNS) {
            const count = countOf(turned(octets, turns));
            const isBetter = !best || count.units > best.units || (count.units === best.units && (count.broken > best.broken || (count.broken === best.broken && count.others > best.others)));
            if (isBetter) best = { form, turns, ...count };
        }
    }
    return best;
}

const partOf = (digits, from, count) => parseInt(digits.slice(from, from + count), 16);

// Returns talker and called of a link control word.
function talkOf(lc) {
    const talk = { format: null, radio: null, group: null, called: null, emergency: null, maker: null };
    if (lc === "none") return talk;
    talk.format = lc.slice(0, 2);
    if (talk.format === "00") talk.group = partOf(lc, 8, 4);
    else if (talk.format === "03") talk.called = partOf(lc, 6, 6);
    else return talk;
    talk.radio = partOf(lc, 12, 6);
    talk.emergency = partOf(lc, 4, 1) >= 8;
    if (!["00", "01"].includes(lc.slice(2, 4))) talk.maker = lc.slice(2, 4);
    return talk;
}

function wordsOf(line) {
    const [kind, ...rest] = line.split(" ");
    const found = { kind };
    for (const it of rest) {
        const at = it.indexOf("=");
        if (at > 0) found[it.slice(0, at)] = it.slice(at + 1);
        else found.unit = it;
    }
    return found;
}

function examinedOf(item) {
    if (item.unit in EXAMINED) return EXAMINED[item.unit];
    return EXAMINED_OF_PACKET + EXAMINED_OF_BLOCK * (1 + (partOf(item.head, 12, 2) % 128));
}

// Returns the lines of `show` as rows and counts, and the calls with the bit errors of their units.
function read(showLines, callLines) {
    const counts = { unit: 0, broken: 0, nounit: 0, gap: 0, cut: 0 }, rows = [], units = [];
    for (const line of showLines) {
        const item = wordsOf(line);
        counts[item.kind]++;
        if (item.kind === "unit") units.push({ at: Number(item.at), fix: Number(item.fix), examined: examinedOf(item) });
        if (item.kind !== "gap" && rows.length < ROWS) rows.push({ kind: item.kind, at: Number(item.at), bits: Number(item.bits), fix: item.fix ? Number(item.fix) : null, unit: item.unit || "", nac: item.nac || "", fields: item.fields || item.field || "" });
    }
    let next = 0;
    const calls = [];
    for (const line of callLines) {
        if (!line.startsWith("call ")) continue;
        const it = wordsOf(line);
        const made = { at: Number(it.at), bits: Number(it.bits), nac: it.nac, entry: it.entry, end: it.end, links: Number(it.links), broken: Number(it.broken), alg: it.alg, lc: it.lc, errors: 0, examined: 0, ...talkOf(it.lc) };
        while (next < units.length && units[next].at < made.at) next++;
        for (let k = next; k < units.length && units[k].at < made.at + made.bits; k++) {
            made.errors += units[k].fix;
            made.examined += units[k].examined;
        }
        calls.push(made);
    }
    const errors = units.reduce((sum, it) => sum + it.fix, 0), examined = units.reduce((sum, it) => sum + it.examined, 0);
    return { counts, rows, calls: calls.slice(0, ROWS), callCount: calls.length, errors, examined };
}

const state = { octets: null };

const jobs = {
    async start({ wasm }) {
        program = await WebAssembly.compile(wasm);
        return {};
    },
    async open({ file, form, turns }) {
        const begin = performance.now();
        postMessage({ phase: "The file is read", progress: 0 });
        const data = new Uint8Array(await file.slice(0, 8 * MOST + 65536).arrayBuffer());
        let found = form ? { form, turns: turns || "" } : null;
        if (!found) {
            postMessage({ phase: "The form is sought", progress: 0 });
            found = formOf(data);
        }
        const octets = octetsOf(data, found.form, MOST);
        if (!octets) return { refused: `The file is no text of ${found.form}.` };
        state.octets = turned(octets, found.turns);
        const more = octetsOf(data, found.form, MOST + 1).length > MOST || file.size > data.length;
        postMessage({ phase: "The recording is read", progress: 0 });
        const shown = call(["show"], state.octets, (percent) => postMessage({ phase: "The recording is read", progress: percent / 2 }));
        const called = call(["calls"], state.octets, (percent) => postMessage({ phase: "The calls are made", progress: 50 + percent / 2 }));
        const result = read(linesOf(shown.chunks), linesOf(called.chunks));
        return { ...result, form: found.form, turns: found.turns, octets: state.octets.length, more, ms: Math.round(performance.now() - begin) };
    },
    async run({ words }) {
        const made = call(words, state.octets, (percent) => postMessage({ phase: `p25 ${words.join(" ")}`, progress: percent }));
        return { blob: new Blob(made.chunks), status: made.status, word: made.word };
    },
};

onmessage = async ({ data }) => {
    try {
        postMessage({ answer: data.number, ...(await jobs[data.job](data)) });
    } catch (error) {
        postMessage({ answer: data.number, refused: String(error && error.message ? error.message : error) });
    }
};
