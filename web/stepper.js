'use strict';
// The stepper: where the first moves of a schedule lead, move by move, and any other move that could be made there. What it
// shows of a state is what `lineup_state` reports; the words and lines of moves are those of `lineup trace`.

// The numbers of `lineup_state` by name (embed/lineup.h).
function read_state(numbers) {
    const [status, made, all, threads, cells, locks] = numbers;
    const state = {status: ['running', 'complete', 'stuck'][status], made, all, threads: [], events: []};
    let at = 6;
    for (let thread = 0; thread < threads; thread++, at += 12) {
        const [picks, ended, operation, place] = numbers.slice(at, at + 4);
        state.threads.push({picks, ended, operation, place, registers: numbers.slice(at + 4, at + 12)});
    }
    state.cells = numbers.slice(at, at += cells);
    state.locks = numbers.slice(at, at += locks);
    for (; at < numbers.length; at += 4) {
        const [kind, thread, call, value] = numbers.slice(at, at + 4);
        state.events.push({kind: ['call', 'return', 'trap'][kind], thread, call, value});
    }
    return state;
}

// The words, locks and operations that a component declares. An operation has the line of each of its instructions.
function read_component(text) {
    const read = {cells: [], locks: [], operations: []};
    let operation = null;
    for (const [index, line] of text.split('\n').entries()) {
        const words = line.replace(/#.*/, '').trim().split(/\s+/);
        if (words[0] === 'word') {
            const size = Number(words[2]);
            for (let cell = 0; cell < size; cell++) read.cells.push(size === 1 ? words[1] : `${words[1]}[${cell}]`);
        } else if (words[0] === 'lock' && !operation) {
            read.locks.push(words[1]);
        } else if (words[0] === 'op') {
            operation = {name: words[1], lines: [], texts: [], registers: new Set()};
            for (let argument = 0; argument < Number(words[2]); argument++) operation.registers.add(argument);
            read.operations.push(operation);
        } else if (words[0] === 'end') {
            operation = null;
        } else if (operation && words[0] !== '' && !/^\w+:$/.test(line.replace(/#.*/, '').trim())) {
            operation.lines.push(index + 1);
            operation.texts.push(line.replace(/#.*/, '').trim());
            for (const [, register] of line.matchAll(/\br([0-7])\b/g)) operation.registers.add(Number(register));
        }
    }
    return read;
}

// The calls of each thread of a matrix.
const calls_of = matrix => [...matrix.matchAll(/^[ \t]*thread\b([^#\n]*)/gm)].map(([, calls]) =>
    calls.split(';').map(call => call.trim()));

// The lines of a trace, each with the number of the move that it belongs to. What a blocked thread waits for belongs to none.
function read_trace(text) {
    const lines = [];
    let move = -1;
    for (const line of text.split('\n').slice(1)) {
        const found = line.match(/^ *(\d+)? +T(\d) (.*)$/);
        if (!found) continue;
        if (found[1] !== undefined) move = Number(found[1]);
        const waits = /# waits /.test(found[3]);
        const of_source = found[3].match(/^line (\d+): (.*)$/);
        lines.push({move: waits ? null : move, is_first: found[1] !== undefined, thread: Number(found[2]), words: found[3],
            line: of_source ? Number(of_source[1]) : null, text: of_source ? of_source[2] : found[3]});
    }
    return lines;
}

let walk = null, drawing = 0;

const schedule_of = moves => ['schedule', ...moves].join(' ') + '\n';
const trace_of = async moves => {
    const said = await ask('trace', bundle_of([walk.typed, walk.matrix, schedule_of(moves)]));
    return read_trace(said.text);
};

// Where these moves lead: the state, the trace up to it, and the words of each move that could be made next.
async function look(moves) {
    const key = moves.join(' '), mine = walk;
    if (mine.known.has(key)) return mine.known.get(key);
    const {status, numbers} = await ask_state(mine.component, mine.matrix, schedule_of(moves), moves.length);
    if (status !== 0) throw new Error(`lineup_state refuses the schedule ${key} (status ${status})`);
    const state = read_state(numbers), trace = await trace_of(moves), next = [];
    for (const [thread, {picks, operation, place}] of state.threads.entries()) {
        for (let pick = 0; pick < picks; pick++) {
            const move = pick === 0 ? `${thread}` : `${thread}:${pick}`;
            const ahead = (await trace_of([...moves, move])).filter(it => it.move === moves.length).find(it => it.is_first);
            if (!ahead) continue;
            next.push({...ahead, move, thread});
            if (operation > 0 && ahead.line) mine.lines.set(`${operation}:${place}`, ahead);
        }
    }
    for (const [thread, {picks, operation, place}] of state.threads.entries()) {
        const key = `${operation}:${place}`, is_blocked = mine.is_source && operation > 0 && picks === 0;
        if (!is_blocked || mine.lines.has(key)) continue;
        const found = await line_when_free(thread, moves);
        if (found?.line) mine.lines.set(key, found);
    }
    const seen = {state, trace, next};
    mine.known.set(key, seen);
    return seen;
}

// The line at which a thread is blocked: that of the move it makes once the others, in turn, have moved so far that it can. A
// trace that ends stuck names the line itself.
async function line_when_free(thread, moves) {
    const played = [...moves];
    for (let turn = 0; turn < 256; turn++) {
        const {status, numbers} = await ask_state(walk.component, walk.matrix, schedule_of(played), played.length);
        if (status !== 0) return null;
        const {status: standing, threads} = read_state(numbers);
        if (standing === 'stuck') return (await trace_of(played)).find(it => it.thread === thread && it.move === null);
        if (threads[thread].picks > 0) return (await trace_of([...played, thread])).find(it => it.move === played.length);
        const able = threads.flatMap(({picks}, other) => picks > 0 ? [other] : []);
        played.push(able[turn % able.length]);
    }
    return null;
}

// Begins with a schedule that fails and its picture, or with no move.
async function begin_walk(typed, matrix, moves, picture) {
    const compiled = (await ask('compile', bundle_of([typed, matrix]))).text;
    const is_source = /^(\s|#.*)*object(\s|$)/.test(typed);
    const component = is_source ? parts_of(compiled)[0] : typed;
    walk = {typed, matrix, component, is_source, fault: moves, moves, at: 0, known: new Map(), lines: new Map(),
        pictures: new Map(picture ? [[moves.join(' '), picture]] : []), pictured: null, calls: calls_of(matrix),
        ...read_component(component)};
    walk.at = Math.min(1, moves.length);
    const all_calls = calls_of(parts_of(editor.getValue())[1] ?? ''), is_part = JSON.stringify(all_calls) !== JSON.stringify(walk.calls);
    $('suffices').textContent = is_part && moves.length
        ? `These calls suffice for it: ${walk.calls.map((calls, thread) => `T${thread} ${calls.join(', ')}`).join('; ')}.` : '';
    $('stepper-title').textContent = moves.length ? 'Step through the schedule' : 'Step through a schedule of your own';
    await show_step();
    $('stepper').hidden = false;
}

function end_walk() {
    walk = null;
    drawing += 1;
    $('stepper').hidden = true;
    mark_threads([]);
    mark_row(null);
}

// The locals of a thread's open operation, by the names of the source, or the registers that its operation uses.
function locals_of(thread, {state, trace}) {
    const {operation, registers} = state.threads[thread];
    if (operation === 0) return [];
    const {name, registers: used} = walk.operations[operation - 1];
    if (!walk.is_source) return [...used].sort().map(register => [`r${register}`, String(registers[register])]);
    const locals = new Map(), shared = new Set([...walk.cells, ...walk.locks].map(cell => cell.replace(/\[.*/, '')));
    const names = walk.typed.match(new RegExp(`^\\s*op\\s+${name}\\s*\\(([^)]*)\\)`, 'm'))?.[1].split(',').map(it => it.trim()) ?? [];
    for (const {thread: of, words, move} of trace) {
        if (of !== thread || move === null) continue;
        if (words.startsWith('call ')) {
            locals.clear();
            const given = words.split('#')[0].trim().split(/\s+/).slice(2);
            given.forEach((value, index) => names[index] && locals.set(names[index], value));
        }
        const remark = words.match(/  # ([A-Za-z_]\w*) = (\d+)/);
        if (remark && !shared.has(remark[1])) locals.set(remark[1], remark[2]);
    }
    return [...locals];
}

// Where a thread's next instruction is, if that is known: a line, and its words.
function place_of(thread, {state, trace, next}) {
    const {operation, place} = state.threads[thread];
    const waits = trace.find(it => it.thread === thread && it.move === null);
    const ahead = next.find(it => it.thread === thread) ?? waits;
    if (operation === 0) return ahead ? {line: null, text: ahead.text} : null;
    const {name, lines, texts} = walk.operations[operation - 1];
    if (!walk.is_source) return {line: lines[place] ?? null, text: waits?.text ?? texts[place] ?? name};
    const known = ahead ?? walk.lines.get(`${operation}:${place}`);
    return known ? {line: known.line, text: known.text} : {line: null, text: name};
}

// Words of a move that is still to come: what it does is seen when it is made.
const without_remark = text => text.replace(/  # (?!waits).*$/, '');

function show_threads(seen, before) {
    const places = [];
    $('cards').replaceChildren();
    for (const [thread, {picks, ended, operation}] of seen.state.threads.entries()) {
        const card = element('div', `thread t${thread}`, undefined, $('cards'));
        const calls = walk.calls[thread] ?? [], call = calls[ended];
        element('span', 'badge', `T${thread}`, card);
        card.append(' ');
        const place = place_of(thread, seen);
        const is_done = operation === 0 && picks === 0;
        element('span', '', is_done ? 'has made all its calls' : operation === 0 ? `calls ${call} next` : `in ${call}`, card);
        if (operation > 0 && place) {
            element('br', '', undefined, card);
            element('code', '', `${place.line ? `line ${place.line}: ` : ''}${without_remark(place.text)}`, card);
            if (place.line) places.push([place.line, thread]);
        }
        if (operation > 0 && picks === 0) element('div', 'error', 'blocked: it cannot move here', card);
        const old = before ? new Map(locals_of(thread, before)) : null;
        const locals = locals_of(thread, seen);
        if (locals.length) show_values(element('div', 'values', undefined, card), locals, old);
        const buttons = element('div', 'picks', undefined, card);
        for (const {move, words} of seen.next.filter(it => it.thread === thread)) {
            const what = walk.at === walk.moves.length ? 'move' : walk.moves[walk.at] === move ? 'next' : 'instead';
            const pick = picks > 1 ? `, pick ${move.split(':')[1] ?? 0}` : '';
            const button = element('button', '', `${what}: T${thread}${pick} ${without_remark(words)}`, buttons);
            button.onclick = () => play(move);
        }
    }
    mark_threads(places);
    show_source(places);
}

// Names with their values; one that differs from before is marked, in words for those who cannot see the mark.
function show_values(parent, values, old) {
    for (const [name, value] of values) {
        const is_new = old !== null && old.get(name) !== value;
        const code = element('code', is_new ? 'changed' : '', `${name} = ${value}`, parent);
        if (is_new) code.title = 'changed by this move';
    }
}

function show_shared({state}, before) {
    const named = it => [
        ...walk.cells.map((name, cell) => [name, String(it.cells[cell])]),
        ...walk.locks.map((name, lock) => [name, it.locks[lock] === 0 ? 'free' : `held by T${it.locks[lock] - 1}`]),
    ];
    $('shared').replaceChildren();
    show_values($('shared'), named(state), before ? new Map(named(before.state)) : null);
}

function show_history({state}, before) {
    $('history').replaceChildren();
    const old = before ? before.state.events.length : state.events.length;
    for (const [index, {kind, thread, call, value}] of state.events.entries()) {
        const words = kind === 'call' ? `calls ${walk.calls[thread]?.[call] ?? ''}` : kind === 'trap' ? 'traps' : `returns ${value}`;
        const entry = element('li', '', undefined, $('history'));
        element('span', `badge t${thread}`, `T${thread}`, entry);
        entry.append(' ');
        element('code', index >= old ? 'changed' : '', words, entry);
    }
    if (state.events.length === 0) element('li', 'dim none', 'no call yet', $('history'));
}

function show_source(places) {
    const pane = $('source');
    pane.replaceChildren();
    let first = null;
    for (const [index, line] of walk.typed.split('\n').entries()) {
        const here = places.filter(([at]) => at === index + 1);
        const row = element('div', here.length ? 'step-line' : '', `${String(index + 1).padStart(3)} `, pane);
        for (const [, thread] of here) element('span', `badge t${thread}`, `T${thread}`, row);
        row.append(` ${line}`);
        first ??= here.length ? row : null;
    }
    if (first) pane.scrollTop = Math.max(0, first.offsetTop - pane.offsetTop - 40);
}

async function show_moves() {
    const trace = await trace_of(walk.moves);
    $('moves').replaceChildren();
    const all = [[0, 'start', ''], ...walk.moves.map((_, move) => {
        const lines = trace.filter(it => it.move === move);
        return [move + 1, lines.map(it => it.words).join('\n      '), `t${lines[0]?.thread}`, lines[0]?.thread];
    })];
    for (const [at, words, kind, thread] of all) {
        const entry = element('li', '', undefined, $('moves'));
        const button = element('button', `${kind}${at > walk.at ? ' ahead' : ''}`, undefined, entry);
        button.textContent = at === 0 ? 'start' : `${String(at - 1).padStart(3)} T${thread} ${words}`;
        button.onclick = () => step_to(at);
        if (at === walk.at) button.setAttribute('aria-current', 'step');
    }
    const current = $('moves').querySelector('[aria-current]');
    if (current) $('moves').scrollTop = current.offsetTop - $('moves').offsetTop - $('moves').clientHeight / 2;
}

const is_fault = () => walk.moves.join(' ') === walk.fault.join(' ');

async function show_step() {
    drawing += 1;
    const mine = drawing, prefix = walk.moves.slice(0, walk.at);
    const seen = await look(prefix), before = walk.at > 0 ? await look(prefix.slice(0, -1)) : null;
    if (mine !== drawing) return;
    $('at').textContent = `${walk.at} of ${walk.moves.length} moves` + (is_fault() ? '' : ', a schedule of your own');
    $('standing').className = '';
    $('standing').textContent = {running: '', complete: 'Every call has ended.', stuck: 'Stuck: no thread can move.'}[seen.state.status];
    $('first').disabled = $('back').disabled = walk.at === 0;
    $('forward').disabled = $('last').disabled = walk.at === walk.moves.length;
    // (the explanation is that of lineup's schedule)
    $('box-explain').hidden = !is_fault() || $('box-explain').querySelector('pre').textContent === '';
    $('again').hidden = is_fault() || walk.fault.length === 0;
    show_threads(seen, before);
    show_shared(seen, before);
    show_history(seen, before);
    await show_moves();
    await show_picture(mine);
    if (mine === drawing) await judge(seen, mine);
}

// The picture of the schedule, with the row of the last move marked. The one of the fault has its explanation in it.
async function show_picture(mine) {
    const key = walk.moves.join(' '), known = walk.pictures;
    if (!known.has(key)) known.set(key, (await ask('draw', bundle_of([walk.typed, walk.matrix, schedule_of(walk.moves)]))).text);
    if (mine !== drawing) return;
    if (walk.pictured !== key) box('draw', walk.moves.length ? known.get(key) : null);
    walk.pictured = key;
    mark_row(walk.at - 1);
}

// What serial histories say of a schedule that one has played to its end.
async function judge({state}, mine) {
    const is_over = !is_fault() && state.status !== 'running' && walk.at === walk.moves.length;
    const said = is_over ? await ask('explain', bundle_of([walk.typed, walk.matrix, schedule_of(walk.moves)])) : null;
    if (mine !== drawing) return;
    $('judged').hidden = !is_over;
    if (!is_over) return;
    const is_none = /^explain none/m.test(said.text), is_explained = !is_none && /^explain witness/m.test(said.text);
    if (is_none) $('standing').textContent += ' No serial order explains this schedule:';
    if (is_explained) $('standing').textContent += ' A serial order explains this schedule:';
    $('standing').className = is_none ? 'error' : is_explained ? 'fine' : '';
    $('judged').textContent = said.text;
}

const step_to = at => steps_of(() => { walk.at = Math.max(0, Math.min(at, walk.moves.length)); });

// Makes a move here: the next one of the schedule, or another, with which a schedule of one's own begins.
const play = move => steps_of(() => {
    if (walk.moves[walk.at] !== move) walk.moves = [...walk.moves.slice(0, walk.at), move];
    walk.at += 1;
});

const replay_fault = () => steps_of(() => {
    walk.moves = walk.fault;
    walk.at = Math.min(walk.at, walk.moves.length);
});

async function steps_of(change) {
    if (!walk) return;
    change();
    try {
        await show_step();
    } catch (fault) {
        if (fault.message !== 'stopped') $('standing').textContent = fault.message;
    }
}

// Arrow keys, Home and End step, and a digit moves that thread, wherever nothing else takes the key.
function step_by_key(event) {
    if (!walk || event.ctrlKey || event.metaKey || event.altKey) return;
    if (event.target.closest('.CodeMirror, input, select, textarea')) return;
    const at = {ArrowLeft: walk.at - 1, ArrowRight: walk.at + 1, Home: 0, End: walk.moves.length}[event.key];
    // (elsewhere Home and End lead to the ends of the page)
    const is_ours = /^Arrow/.test(event.key) || event.target.closest('#stepper');
    if (at !== undefined && is_ours) step_to(at);
    else if (/^[0-7]$/.test(event.key) && walk.known.get(walk.moves.slice(0, walk.at).join(' '))?.next.some(it => it.move === event.key)) {
        play(event.key);
    } else return;
    event.preventDefault();
}
