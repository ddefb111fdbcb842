'use strict';
// The page: the worker, verdicts, commands, examples and links.

const facts = JSON.parse($('facts').textContent);
const BOXES = ['explain', 'draw', 'text'];

// ---- the worker: a trap or `stop` ends it, and another one is begun

const worker_source = URL.createObjectURL(new Blob([$('worker').textContent], {type: 'text/javascript'}));
const waiting = new Map();
let module = null, worker = null, asked = 0;

// The bytes that were packed as base64 of what gzip or deflate made.
async function unpacked(packed, format) {
    const bytes = Uint8Array.from(atob(packed), letter => letter.charCodeAt(0));
    return new Response(new Blob([bytes]).stream().pipeThrough(new DecompressionStream(format))).arrayBuffer();
}

function begin() {
    worker = new Worker(worker_source);
    worker.onmessage = ({data}) => {
        const done = waiting.get(data.id);
        waiting.delete(data.id);
        if (data.fault) {
            stop();
            done?.refuse(new Error(data.fault));
        } else {
            done.take(data);
        }
    };
    worker.postMessage({module, stack: facts.stack});
}

function stop() {
    worker.terminate();
    for (const {refuse} of waiting.values()) refuse(new Error('stopped'));
    waiting.clear();
    begin();
}

function post(question) {
    asked += 1;
    const id = asked;
    return new Promise((take, refuse) => {
        waiting.set(id, {take, refuse});
        worker.postMessage({id, ...question});
    });
}

const ask = (words, bundle) => post({words, bundle});
const ask_state = (component, matrix, schedule, moves) => post({component, matrix, schedule, moves});

// ---- what is shown

let picture = null, rows = new Map();

function box(name, text) {
    const it = $('box-' + name);
    it.hidden = text === null;
    if (name !== 'draw') {
        it.querySelector('pre').textContent = text ?? '';
        return;
    }
    // an image and no part of the page: what a bundle says is never read as HTML
    if (picture) URL.revokeObjectURL(picture);
    picture = text === null ? null : URL.createObjectURL(new Blob([text], {type: 'image/svg+xml'}));
    rows = rows_of(text ?? '');
    if (picture) it.querySelector('img').src = picture;
    mark_row(null);
}

// Where the row of each move lies in a picture that runs down the page: from its top, in height, and where its words begin. A
// move that only its own thread sees has a tick in place of words.
function rows_of(svg) {
    const worded = [...svg.matchAll(/<text class='m'[^>]* x='(\d+)' y='(\d+)'>(\d+)<\/text><text [^>]*x='(\d+)'/g)]
        .map(([, x, top, move, left]) => ({x, top: Number(top), move: Number(move), left: Number(left)}));
    if (worded.length === 0 || worded.some(({x}) => x !== worded[0].x)) return new Map();
    const ticks = [...svg.matchAll(/<path class='t' d='M(\d+) (\d+)m[^>]*><title>(\d+) T/g)]
        .map(([, left, top, move]) => ({top: Number(top), move: Number(move), left: Number(left)}));
    const found = [...worded, ...ticks].sort((one, other) => one.move - other.move);
    return new Map(found.map(({top, move, left}, at) => [move, {top, left, height: Math.max(4, (found[at + 1]?.top ?? top + 18) - top)}]));
}

function mark_row(move) {
    const row = rows.get(move);
    $('row').hidden = !row;
    if (!row) return;
    $('row').style.top = `${row.top}px`;
    $('row').style.height = `${row.height}px`;
    const pane = $('frame').parentElement, words = 300;
    const is_in_height = row.top >= pane.scrollTop && row.top + row.height <= pane.scrollTop + pane.clientHeight;
    const is_in_width = row.left >= pane.scrollLeft && row.left + words <= pane.scrollLeft + pane.clientWidth;
    if (!is_in_height) pane.scrollTop = row.top - pane.clientHeight / 2;
    if (!is_in_width) pane.scrollLeft = row.left - 80;
}

function clear() {
    for (const name of BOXES) box(name, null);
    end_walk();
}

function verdict(kind, said, why, took) {
    $('verdict').className = kind;
    show_words($('said'), said);
    show_words($('why'), why);
    $('took').textContent = took;
}

function time(ms) {
    return ms < 10 ? ms.toFixed(1) + ' ms' : ms < 1000 ? ms.toFixed(0) + ' ms' : (ms / 1000).toFixed(1) + ' s';
}

// How many schedules a pass cut, and of how many; none for another text.
function cut_of(text) {
    const count = name => BigInt(text.match(new RegExp(`^${name} (\\d+)$`, 'm'))?.[1] ?? 0);
    const cut = /^pass$/m.test(text) ? count('cut') : 0n;
    return {cut, all: cut + count('complete') + count('stuck')};
}

function percent(part, whole) {
    const hundredths = part * 10000n / whole;
    return hundredths === 0n ? 'less than 0.01 %' : `${hundredths / 100n}.${String(hundredths % 100n).padStart(2, '0')} %`;
}

// What a text that lineup prints means: a colour, a sentence, and what it is about. Green is only what is about every schedule: a
// certificate, and a pass that cut none.
const MEANINGS = [
    [/^linearizable$/, 'good', 'Linearizable', 'A serial order of the calls explains every schedule, of any length.'],
    [/^campaign linearizable (\d+)$/, 'good', 'Every matrix is linearizable', 'Below is how many there are.'],
    [/^fail complete$/, 'bad', 'Not linearizable: no serial order of the calls has these results', ''],
    [/^fail stuck/, 'bad', 'Not linearizable: a thread blocks forever, and no serial order explains that', ''],
    [/^nondeterministic$/, 'bad', 'Not deterministic: two serial runs of the same calls differ', ''],
    [/^livelock$/, 'bad', 'Livelock: after this schedule no execution ends', 'Some thread can always move, but the calls never return.'],
    [/^witness pass/, 'good', 'A serial order explains each recorded run', ''],
    [/^witness fail/, 'bad', 'A recorded run has no linearization', 'Below is the first such run, up to the event that shows it.'],
    [/^serial-cut/, 'part', 'Undecided: an operation takes more moves alone than `serial` allows', 'Set a larger `serial` in the options.'],
    [/^undecided$/, 'part', 'Undecided: the search was cut short', 'Set more `nodes` in the options, or make the matrix smaller.'],
    [/^refused stack$/, 'odd', 'These bounds need more memory than the page has', 'Set smaller bounds in the options.'],
];
// The same where a specification is given in place of the serial runs.
const BY_SPECIFICATION = [
    [/^fail complete$/, 'bad', 'Fails: the specification has no history with these results', ''],
    [/^fail stuck/, 'bad', 'Fails: a thread blocks forever, and the specification does not allow that', ''],
    ...MEANINGS,
];
const STATUSES = [['good', 'Success'], ['bad', 'Failure'], ['odd', 'Refused'], ['part', 'Undecided'], ['odd', 'Out of memory']];

function meaning_of({status, text}, words) {
    const lines = text.split('\n'), has_rounds = / --(rounds|forever)/.exec(words), by_spec = words.includes('--spec');
    if (lines.includes('pass')) {
        const {cut, all} = cut_of(text), by = by_spec ? 'the specification' : 'a serial order';
        return cut === 0n
            ? ['good', `Passes: ${by} explains each schedule`, `None of the ${all} schedules was cut.`]
            : ['part', `Passes, but ${percent(cut, all)} of the schedules were cut`,
                `Only ${all - cut} of ${all} schedules are within the bound and were judged. \`Certify\` judges schedules of any length.`];
    }
    for (const [pattern, kind, said, why] of by_spec ? BY_SPECIFICATION : MEANINGS) {
        if (!lines.some(it => pattern.test(it))) continue;
        const repeated = !has_rounds ? '' : has_rounds[1] === 'forever' ? ' Each thread repeats its calls any number of times.'
            : ` Each thread repeats its calls up to ${$('rounds').value} times.`;
        return [kind, said, kind === 'good' ? why + repeated : why];
    }
    const refused = lines.find(it => it.startsWith('refused'));
    const [kind, said] = refused ? ['bad', `Refused: ${refused.replace('refused ', '')}`] : STATUSES[status];
    return [kind, said, ''];
}

// ---- the commands

const parts_of = text => text.split(/^---[ \t]*\r?\n/m);
const bundle_of = parts => parts.map(part => part === '' || part.endsWith('\n') ? part : part + '\n').join('---\n');
// Whether there are recorded runs after the component, or after it and a setup: a part's first word is `run`.
const has_runs = parts => parts.slice(1, 3).some(part => /^(\s|#.*)*run(\s|#|$)/.test(part));
const has_spec = parts => parts.length === 3 && parts[2].startsWith('lineup spec');
const options = names => names.filter(name => $(name).value !== '').map(name => ` --${name} ${$(name).value}`).join('');

// Marks the faults of the text on their lines, and returns them.
async function lint(text) {
    const parts = parts_of(text);
    const said = await ask('lint', has_runs(parts) ? bundle_of(parts.slice(0, 1)) : text);
    const faults = faults_of(said.text);
    if (text === editor.getValue()) mark_faults(faults);
    return faults;
}

// The command line of a button, and the bundle that it is about. The first part may be a source: `--source` reads one, and
// changes nothing else. Recorded runs and specifications have their own commands.
const COMMANDS = {
    certify(text) {
        const parts = parts_of(text);
        if (has_runs(parts)) return ['witness' + options(['serial']), text];
        if (has_spec(parts)) return COMMANDS.check(text);
        const rounds = $('forever').checked ? ' --forever' : options(['rounds']);
        return ['certify' + rounds + options(['bound', 'serial', 'nodes']), bundle_of(parts.slice(0, 2))];
    },
    check(text) {
        const parts = parts_of(text);
        if (has_runs(parts)) return ['witness' + options(['serial']), text];
        return has_spec(parts) ? ['check --spec' + options(['bound']), text]
            : ['check' + options(['bound', 'serial']), bundle_of(parts.slice(0, 2))];
    },
    // Without `--by-thread` all calls are on one line; so the calls of all threads are put there.
    campaign(text) {
        const [component, matrix = ''] = parts_of(text), is_by_thread = $('by-thread').checked;
        const setup = matrix.match(/^[ \t]*setup\b.*$/m)?.[0] ?? '', calls = [...new Set(calls_of(matrix).flat())];
        const threads = is_by_thread ? ' --by-thread' : options(['threads']);
        return ['campaign --certify' + options(['calls']) + threads + options(['bound', 'serial']),
            bundle_of([component, is_by_thread ? matrix : `${setup}\nthread ${calls.join(';')}\n`])];
    },
};

// The matrix and the report, or schedule, that a failure is shown with.
function failure_of(answer, typed) {
    const parts = parts_of(answer), shown = parts.findIndex(part => /^schedule/m.test(part));
    if (shown < 0) return null;
    // (a campaign prints the matrix, and then the cut of it that fails)
    const matrix = parts.slice(0, shown).filter(part => /^\s*(setup|thread)\b/m.test(part)).pop() ?? parts_of(typed)[1];
    return {matrix, report: parts[shown], moves: parts[shown].match(/^schedule(.*)$/m)[1].trim().split(/\s+/).filter(move => move)};
}

// Shows a failing schedule: the steps, why no serial history explains it, and the picture.
async function show_failure(typed, {matrix, report, moves}) {
    const parts = parts_of(typed), spec = has_spec(parts) ? [parts[2]] : [], case_of = [parts[0], matrix, report];
    const serial = report.match(/^serial (\d+)$/m), bound = serial ? ` --serial ${serial[1]}` : '';
    if (/^lineup report/m.test(report)) {
        const why = await ask(spec.length ? 'explain --spec' : 'explain' + bound, bundle_of([...case_of, ...spec]));
        box('explain', why.text);
    }
    const is_explained = !spec.length && /^fail/m.test(report);
    const drawn = await ask(is_explained ? 'draw --explain' + bound : 'draw', bundle_of(case_of));
    await begin_walk(parts[0], matrix, moves, drawn.text);
}

let runs = 0;

async function run_command(name, text) {
    const faults = await lint(text), error = faults.find(({kind}) => kind === 'error');
    if (error) {
        const [mistake, help] = error.words.split('; help: ');
        verdict('bad', `Line ${error.line}: ${mistake}`, [help ? `help: ${help}` : '',
            faults.length > 1 ? `All ${faults.length} messages are listed below the text.` : ''].join('\n'), 'lint');
        return;
    }
    if (parts_of(text).length === 1) {
        verdict('part', 'There is no matrix yet',
            'Add a line `---`, and below it a line `thread` with calls for each thread, as in `thread inc;get`.', 'lint');
        return;
    }
    const [words, bundle] = COMMANDS[name](text);
    const said = await ask(words + ' --source', bundle);
    const [kind, sentence, why] = meaning_of(said, words);
    verdict(kind, sentence, why, `${words}, ${time(said.took)}`);
    show_words($('text-title'), `What \`lineup ${words}\` prints`);
    box('text', said.text);
    $('box-text').querySelector('details').open = words.startsWith('witness') || words.startsWith('campaign');
    const failure = failure_of(said.text, text), parts = parts_of(text);
    if (failure && said.status === 1) await show_failure(text, failure);
    else if (parts.length > 1 && !has_runs(parts) && said.status !== 2) await begin_walk(parts[0], parts[1], []);
}

async function run(name) {
    if (!module) return;
    clearTimeout(soon);
    if (waiting.size > 0) stop();
    runs += 1;
    const mine = runs;
    clear();
    verdict('', 'Searching ..', '', '');
    $('stop').disabled = false;
    try {
        await run_command(name, editor.getValue());
    } catch (fault) {
        const words = fault.message === 'stopped' ? 'Stopped'
            : /stack|RangeError|out of bounds/.test(fault.message) ? 'The stack is too small for this search' : 'The search failed';
        if (mine === runs) verdict('odd', words, fault.message === 'stopped' ? '' : fault.message, '');
    }
    if (mine === runs) $('stop').disabled = true;
}

// ---- what is typed

let soon = 0;

// The verdict on another text, or with other bounds, does not stay: it goes as soon as something changes.
function typed() {
    if (!module) return;
    clearTimeout(soon);
    if (waiting.size > 0) stop();
    runs += 1;
    clear();
    verdict('', $('live').checked ? 'Changed: not certified yet ..' : 'Changed: not certified yet', '', '');
    $('stop').disabled = true;
    soon = setTimeout(() => $('live').checked ? run('certify') : lint(editor.getValue()), 350);
}

// ---- examples and links

const examples = JSON.parse($('examples').textContent);

function set_text(text) {
    editor.setValue(text);
    editor.clearHistory();
    run('certify');
}

const example = name => examples.find(it => it.name === name);

function choose(name) {
    const {text, about} = example(name);
    $('example').value = name;
    $('about-example').textContent = about;
    set_text(text);
}

// The text as a link: deflated, and in the letters of base64 that an address may have.
async function packed(text) {
    const zipped = await new Response(new Blob([text]).stream().pipeThrough(new CompressionStream('deflate-raw'))).arrayBuffer();
    const letters = [...new Uint8Array(zipped)].map(byte => String.fromCharCode(byte)).join('');
    return btoa(letters).replaceAll('+', '-').replaceAll('/', '_').replace(/=+$/, '');
}

const text_of_link = async link => new TextDecoder().decode(await unpacked(link.replaceAll('-', '+').replaceAll('_', '/'), 'deflate-raw'));

// `lineup.html#examples/broken-counter` begins with that example, and `lineup.html#text=..` with the text that is packed there.
async function begin_with() {
    const wanted = decodeURIComponent(location.hash.slice(1));
    if (!wanted.startsWith('text=')) {
        choose(example(wanted) ? wanted : 'sources/broken-counter');
        return;
    }
    try {
        const text = await text_of_link(wanted.slice(5));
        if (text === editor.getValue()) return;
        $('example').value = '';
        $('about-example').textContent = 'From a link.';
        set_text(text);
    } catch {
        choose('sources/broken-counter');
        $('about-example').textContent = 'The link is damaged: its text cannot be read. This is an example instead.';
    }
}

async function share() {
    location.hash = 'text=' + await packed(editor.getValue());
    try {
        await navigator.clipboard.writeText(location.href);
        $('shared-link').textContent = 'The link is copied. It contains the text.';
    } catch {
        $('shared-link').textContent = 'The address of this page now contains the text: copy it.';
    }
}

for (const label of new Set(examples.map(({group}) => group))) {
    const group = element('optgroup', '', undefined, $('example'));
    group.label = label;
    for (const {name, title, about} of examples.filter(it => it.group === label)) {
        group.append(new Option(title, name));
        group.lastChild.title = about;
    }
}

// ---- the controls

$('example').onchange = () => {
    history.replaceState(null, '', '#' + $('example').value);
    choose($('example').value);
};
window.onhashchange = begin_with;
editor.on('change', (_, {origin}) => {
    $('shared-link').textContent = '';
    if (origin === 'setValue') return;
    // the address had another text
    if (location.hash.startsWith('#text=')) history.replaceState(null, '', '#');
    typed();
});
for (const id of ['bound', 'serial', 'nodes', 'rounds', 'forever']) $(id).oninput = typed;
for (const name of Object.keys(COMMANDS)) $(name).onclick = () => run(name);
$('stop').onclick = stop;
$('share').onclick = share;
$('first').onclick = () => step_to(0);
$('back').onclick = () => step_to(walk.at - 1);
$('forward').onclick = () => step_to(walk.at + 1);
$('last').onclick = () => step_to(walk.moves.length);
$('again').onclick = replay_fault;
document.addEventListener('keydown', event => {
    if ((event.ctrlKey || event.metaKey) && event.key === 'Enter') run('certify');
    else step_by_key(event);
});

(async () => {
    const begun = performance.now();
    try {
        const code = await unpacked($('packed').textContent.trim(), 'gzip');
        module = await WebAssembly.compile(code);
        const size = (code.byteLength / 1e6).toFixed(1);
        const took = time(performance.now() - begun);
        $('about').textContent = `${facts.version}; ${size} MB of WebAssembly, ready after ${took}. `
            + `Editor: CodeMirror ${CodeMirror.version}`;
    } catch (fault) {
        $('old').textContent = `This browser is too old for lineup. ${$('needs').textContent} (${fault})`;
        return;
    }
    $('old').remove();
    $('verdict').hidden = false;
    begin();
    await begin_with();
})();
