'use strict';
// The worker has the module, and answers one question after the other: `words` and `bundle` with a status and a text, and
// `component`, `matrix`, `schedule` and `moves` with a status and numbers (embed/lineup.h has both calls).
const ROOM = 1 << 20, MOST_NUMBERS = 6 + 8 * 12 + 16 * 64 + 8 + 32 * 4;
let library = null, stack = 0n;

function lend(size) {
    const at = library.lend(BigInt(size));
    if (at === 0n) throw new Error('out of memory');
    return at;
}

// Lends room for each text and size, and takes it back when the call is over.
function with_room(texts, sizes, call) {
    const lent = [];
    try {
        const given = [];
        for (const text of texts) {
            const bytes = new TextEncoder().encode(text), at = lend(bytes.length + 1);
            lent.push(at);
            new Uint8Array(library.memory.buffer).set(bytes, Number(at));
            given.push(at, BigInt(bytes.length));
        }
        for (const size of sizes) {
            const at = lend(size);
            lent.push(at);
            given.push(at);
        }
        return call(...given);
    } finally {
        lent.forEach(library.give_back);
    }
}

const number_at = at => Number(new DataView(library.memory.buffer).getBigUint64(Number(at), true));

function answer(words, bundle, room) {
    const told = with_room([words, bundle], [room, 8], (line, line_length, input, input_length, text_at, length_at) => {
        const status = library.lineup_answer(line, line_length, input, input_length, stack, text_at, BigInt(room), length_at) & 255;
        const length = number_at(length_at);
        const bytes = new Uint8Array(library.memory.buffer, Number(text_at), Math.min(length, room));
        return {status, length, text: new TextDecoder().decode(bytes)};
    });
    return told.length > room ? answer(words, bundle, told.length) : {status: told.status, text: told.text};
}

function state(component, matrix, schedule, moves) {
    return with_room([component, matrix, schedule], [4 * MOST_NUMBERS, 8], (...given) => {
        const [numbers_at, count_at] = given.slice(6);
        const status = library.lineup_state(...given.slice(0, 6), BigInt(moves), numbers_at, BigInt(MOST_NUMBERS), count_at) & 255;
        const count = Math.min(number_at(count_at), MOST_NUMBERS);
        return {status, numbers: [...new Uint32Array(library.memory.buffer, Number(numbers_at), count)]};
    });
}

onmessage = async ({data}) => {
    try {
        if (data.module) {
            stack = BigInt(data.stack);
            library = (await WebAssembly.instantiate(data.module, {})).exports;
            return;
        }
        const begun = performance.now();
        const said = data.words === undefined ? state(data.component, data.matrix, data.schedule, data.moves)
            : answer(data.words, data.bundle, ROOM);
        postMessage({id: data.id, ...said, took: performance.now() - begun});
    } catch (fault) {
        postMessage({id: data.id, fault: String(fault)});
    }
};
