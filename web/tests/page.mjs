// Tries the page as somebody uses it: types, steps, follows links. `tell` is called with each fault.
import { readFileSync } from 'node:fs';
import { wait } from './browser.mjs';

export const IDLE = `document.readyState === 'complete' && document.getElementById('stop').disabled
    && document.getElementById('about').textContent !== '' && !/Searching|certified yet \\.\\./.test($('said').textContent)`;

// A browser without 64-bit memories is told so.
export async function try_old(shown, tell) {
    if (!await shown.until(`/too old for lineup\\..*Firefox 134/.test(document.getElementById('old')?.textContent)`, 5000)) {
        tell(`a browser that is too old is told ${await shown.evaluate(`document.getElementById('old')?.textContent`)}`);
    }
    if (!await shown.evaluate(`document.getElementById('verdict').hidden`)) tell('a browser that is too old is shown a verdict');
}

// What the module reports of each state that was stepped to.
export const states = [];

export async function try_page(shown, page, root, folder, tell) {
    const { evaluate, until, press, type } = shown;
    const idle = async () => {
        await wait(50);
        if (!await until(IDLE)) tell(`the page is still at work: ${await evaluate(`$('said').textContent`)}`);
    };
    const example = async name => {
        await evaluate(`choose('${name}')`);
        await idle();
    };
    const click = async name => {
        await evaluate(`$('${name}').click()`);
        await idle();
    };
    const is = async (expression, wanted, what) => {
        const told = await evaluate(expression);
        if (told !== wanted) tell(`${what}: ${JSON.stringify(told)} in place of ${JSON.stringify(wanted)}`);
    };
    const is_judged = async (kind, words, what) => {
        await is(`$('verdict').className`, kind, `the colour of ${what}`);
        const said = await evaluate(`$('said').textContent`);
        if (!said.startsWith(words)) tell(`${what}: ${said} in place of ${words}`);
    };
    const shots = async name => {
        await shown.shot(`${folder}/${name}.png`, { width: 1280, height: 1100 });
        await shown.shot(`${folder}/${name}-dark.png`, { width: 1280, height: 1100, dark: true });
        await shown.shot(`${folder}/${name}-phone.png`, { width: 390, height: 2000, mobile: true });
        await shown.shot(`${folder}/${name}-phone-dark.png`, { width: 390, height: 2000, mobile: true, dark: true });
        await shown.shot(`${folder}/${name}.png`, { width: 1280, height: 1100 });
    };

    // ---- verdicts: green is about every schedule, grey is a check that cut some, red is a fault
    await idle();
    await is_judged('good', 'Linearizable', 'the example of the address, locked-counter');
    await is(`$('old')`, null, 'the message for browsers that are too old');
    await shots('good');
    for (const [name, kind, words] of [
        ['sources/cas-counter', 'good', 'Linearizable'], ['sources/broken-counter', 'bad', 'Not linearizable'],
        ['sources/spin-order', 'bad', 'Livelock'], ['sources/lock-order', 'bad', 'Not linearizable: a thread blocks'],
        ['examples/coin', 'bad', 'Not deterministic'], ['examples/barrier.spec', 'good', 'Passes'],
        ['recorded/slot', 'bad', 'A recorded run has no linearization'],
    ]) {
        await example(name);
        await is_judged(kind, words, name);
        const has_steps = kind === 'bad' && !name.startsWith('recorded');
        if (has_steps) await is(`$('stepper').hidden || $('box-draw').hidden`, false, `${name} without steps or picture`);
    }
    await example('sources/spin-order');
    await click('check');
    await is_judged('part', 'Passes, but 99.99 % of the schedules were cut', 'a check that cuts schedules');
    await shots('part');
    await example('sources/locked-counter');
    await click('check');
    await is_judged('good', 'Passes', 'a check that cuts none');

    // ---- rounds, campaigns
    await example('sources/cas-counter');
    await evaluate(`$('rounds').value = 2`);
    await click('certify');
    await is(`$('took').textContent.startsWith('certify --rounds 2,')`, true, 'certify with rounds');
    await is_judged('good', 'Linearizable', 'cas-counter with rounds');
    await is(`/up to 2 times/.test($('why').textContent)`, true, 'the certificate says nothing of rounds');
    await evaluate(`$('rounds').value = ''`);
    await click('campaign');
    await is_judged('good', 'Every matrix is linearizable', 'a campaign of cas-counter');
    await example('sources/broken-counter');
    await click('campaign');
    await is_judged('bad', 'Not linearizable', 'a campaign of broken-counter');
    await is(`$('stepper').hidden`, false, 'the steps of a campaign are hidden');
    await evaluate(`editor.setValue(editor.getValue().replace(/---[^]*/, ''))`);
    await click('certify');
    await is_judged('part', 'There is no matrix yet', 'a text without a matrix');

    // ---- a fault is marked on its line while one types, and goes when it is mended
    await example('sources/broken-counter');
    await evaluate(`editor.focus(), editor.setSelection({line: 6, ch: 15}, {line: 6, ch: 20})`);
    await is(`editor.getSelection()`, 'count', 'what is selected');
    await type('cuont');
    await is(`$('said').textContent`, 'Changed: not certified yet ..', 'the verdict right after typing');
    await is(`['stepper', 'box-draw', 'box-explain', 'box-text'].every(name => $(name).hidden)`, true, 'what was said before is still there');
    await wait(400);
    await idle();
    await is_judged('bad', 'Line 7: ', 'a name that is misspelt');
    await is(`editor.lineInfo(6).gutterMarkers?.['faults-gutter']?.className`, 'fault-mark error', 'the mark of line 7');
    await is(`document.querySelectorAll('#faults li').length`, 1, 'how many faults are listed');
    await shots('fault');
    await evaluate(`document.querySelector('#faults button').click()`);
    await is(`editor.getCursor().line`, 6, 'where the listed fault leads');
    await evaluate(`editor.setSelection({line: 6, ch: 15}, {line: 6, ch: 20})`);
    await type('count');
    await wait(400);
    await idle();
    await is(`document.querySelectorAll('#faults li').length`, 0, 'faults of a text that was mended');
    await is_judged('bad', 'Not linearizable', 'the text that was mended');
    // without `while I type` nothing is certified, but a fault is marked, and the old verdict goes
    await evaluate(`$('live').checked = false`);
    await evaluate(`$('bound').value = 30, $('bound').dispatchEvent(new Event('input'))`);
    await is(`$('said').textContent + $('verdict').className`, 'Changed: not certified yet', 'the verdict after another bound');
    await wait(600);
    await is(`$('said').textContent`, 'Changed: not certified yet', 'the verdict where nothing is certified');
    await evaluate(`$('bound').value = '', $('live').checked = true`);

    // ---- each state of a schedule, against lineup_state
    for (const name of ['sources/broken-counter', 'examples/broken-counter', 'sources/treiber-stack-reused', 'sources/lock-order']) {
        await example(name);
        await step_through(shown, name, tell);
    }
    await is(`$('standing').textContent`, 'Stuck: no thread can move.', 'the end of lock-order');

    // ---- the rows of a picture that runs down the page
    const drawn = readFileSync(`${root}/docs/pictures/broken-counter.svg`, 'utf8');
    const words = [...drawn.matchAll(/<title>(\d+) T/g)].map(([, move]) => Number(move));
    await is(`JSON.stringify([...rows_of(${JSON.stringify(drawn)}).keys()])`, JSON.stringify(words), 'the rows of a picture');
    if (words.length === 0) tell('the picture has no rows');

    // ---- free play, by keys: T0 alone to its end, and then T1, which no longer loses its increment
    await example('sources/broken-counter');
    await evaluate(`document.activeElement.blur(), step_to(0)`);
    await until(`$('at').textContent === '0 of 12 moves'`);
    await shots('steps');
    for (let move = 1; move <= 12; move++) {
        await press(move <= 6 ? '0' : '1');
        if (!await until(`$('at').textContent.startsWith('${move} of')`, 4000)) tell(`move ${move} of free play is not made`);
    }
    await is(`$('at').textContent`, '12 of 12 moves, a schedule of your own', 'the end of free play');
    await until(`!$('judged').hidden`, 4000);
    await is(`/^T1 returns 2$/m.test($('history').innerText)`, true, 'T1 returns 2 after T0');
    await is(`/^explain /.test($('judged').textContent)`, true, 'what explains the schedule that was played');
    await is(`$('box-draw').hidden`, false, 'the picture of the schedule that was played is hidden');
    await is(`walk.pictured`, '0 0 0 0 0 0 1 1 1 1 1 1', 'the schedule of the picture');
    await is(`$('box-explain').hidden`, true, 'the explanation of another schedule is hidden');
    await shots('played');
    await press('ArrowLeft');
    if (!await until(`$('at').textContent.startsWith('11 of 12 moves')`, 4000)) tell('the left arrow does not step back');
    await click('again');
    await until(`$('at').textContent === '11 of 12 moves'`, 4000);
    await is(`$('at').textContent`, '11 of 12 moves', 'the schedule of the fault, again');
    await is(`$('box-explain').hidden`, false, 'the explanation of the fault is hidden');

    // ---- a part of the matrix that fails is named; Home and End step where the focus is in the steps
    await example('sources/mended');
    await is(`/^These calls suffice for it: T0 /.test($('suffices').textContent)`, true, 'the calls that suffice');
    await evaluate(`$('stepper').focus()`);
    await press('End');
    if (!await until(`$('last').disabled`, 4000)) tell('End does not step to the end');
    await press('Home');
    if (!await until(`$('first').disabled`, 4000)) tell('Home does not step to the start');

    // ---- a thread that waits for a lock is marked at its line, before any trace names that line
    await example('sources/locked-counter');
    for (const [number, move] of ['0', '0', '1'].entries()) {
        await press(move);
        await until(`$('at').textContent.startsWith('${number + 1} of')`, 4000);
    }
    const lock = await evaluate(`editor.getValue().split('\\n').findIndex(line => /^ +lock /.test(line)) + 1`);
    await until(`$('cards').children[1].innerText.includes('blocked')`, 4000);
    await is(`$('cards').children[1].innerText.includes('line ${lock}: lock ')`, true, 'the line of a blocked thread');
    await is(`editor.lineInfo(${lock - 1}).gutterMarkers['threads-gutter'].textContent`, 'T1', 'the mark of a blocked thread');

    // ---- a link has the text; a damaged one says so
    await evaluate(`editor.setValue('object linked\\nword a\\nop get() {\\n    return a\\n}\\n---\\nthread get # <b>&amp;+/\\n')`);
    await evaluate(`share()`);
    await idle();
    const link = await evaluate(`location.hash`), text = await evaluate(`editor.getValue()`);
    if (!link.startsWith('#text=')) tell(`the link is ${link}`);
    await evaluate(`location.hash = '#sources/cas-counter'`);
    await until(`/object cas_counter/.test(editor.getValue())`, 4000);
    await evaluate(`location.hash = ${JSON.stringify(link)}`);
    if (!await until(`editor.getValue() === ${JSON.stringify(text)}`, 4000)) tell('a link does not bring its text back');
    await idle();
    await is_judged('good', 'Linearizable', 'the text of a link');
    await evaluate(`location.hash = '#text=nonsense'`);
    if (!await until(`/damaged/.test($('about-example').textContent)`, 4000)) tell('a damaged link is not reported');
    await idle();

    // ---- the keyboard alone: Ctrl+Enter certifies, and Tab leaves the editor
    await evaluate(`choose('sources/cas-counter')`);
    await idle();
    await evaluate(`$('live').checked = false, editor.focus(), editor.setCursor(0, 0)`);
    await type('# ');
    await wait(500);
    await is(`$('said').textContent`, 'Changed: not certified yet', 'the verdict where nothing is certified while one types');
    await press('Enter', { control: true });
    await idle();
    await is_judged('good', 'Linearizable', 'Ctrl+Enter');
    await evaluate(`$('live').checked = true`);
    await press('Tab');
    await is(`document.activeElement.closest('.CodeMirror') === null`, true, 'Tab leaves the editor');
    await is(`/\\t/.test(editor.getValue())`, false, 'Tab writes into the editor');

    // ---- a search that runs for long: the page answers meanwhile, and stops it
    await example('examples/peterson');
    await evaluate(`$('bound').value = 256, $('serial').value = 256, $('check').click()`);
    await wait(500);
    await is(`$('stop').disabled`, false, 'a check of peterson at 256 moves ended at once');
    await click('stop');
    await is_judged('odd', 'Stopped', 'a search that is stopped');
    await evaluate(`$('bound').value = '', $('serial').value = ''`);
    await click('certify');
    await is_judged('good', 'Linearizable', 'peterson after what was stopped');

    // ---- every example has a sentence, and no text of the page is wider than a phone
    for (const name of await evaluate(`examples.filter(({about}) => about === '').map(({name}) => name)`)) tell(`${name} has no sentence`);
    await shown.shot(`${folder}/phone.png`, { width: 390, height: 2000, mobile: true });
    await is(`document.documentElement.scrollWidth <= 390`, true, 'the page fits a phone');
    for (const fault of shown.faults) tell(`the page: ${fault}`);
}

// Steps a schedule to its end by the right arrow. What is shown of each state has to be what `lineup_state` reports of it.
async function step_through({ evaluate, until, press }, name, tell) {
    await evaluate(`document.activeElement.blur(), step_to(0)`);
    const moves = await evaluate(`walk.moves.length`);
    for (let at = 0; at <= moves; at++) {
        if (at > 0) await press('ArrowRight');
        const current = `$('moves').querySelector('[aria-current]')?.parentElement === $('moves').children[${at}]`;
        if (!await until(`$('at').textContent === '${at} of ${moves} moves' && ${current}`, 4000)) {
            tell(`${name}: move ${at} is not shown, but ${await evaluate(`$('at').textContent`)}`);
            return;
        }
        const [question, { status, numbers }] = await evaluate(`(async () => {
            const question = [walk.component, walk.matrix, 'schedule ' + walk.fault.join(' ') + '\\n', ${at}];
            return [question, await ask_state(...question)];
        })()`);
        states.push({ question, told: [status, numbers] });
        const [, , , threads, cells, locks] = numbers, first = 6 + 12 * threads;
        const values = numbers.slice(first, first + cells + locks);
        const shown_values = await evaluate(`[...document.querySelectorAll('#shared code')].map(it => it.textContent.split(' = ')[1])`);
        const wanted = values.map((value, index) => index < cells ? String(value) : value === 0 ? 'free' : `held by T${value - 1}`);
        const events = numbers.slice(first + cells + locks), history = [];
        for (let event = 0; event < events.length; event += 4) {
            history.push(`T${events[event + 1]} ${events[event] === 0 ? 'calls' : `returns ${events[event + 3]}`}`);
        }
        const shown_history = await evaluate(`[...$('history').children].filter(it => !it.matches('.dim'))
            .map(it => it.textContent.replace(/calls .*/, 'calls'))`);
        const can_move = await evaluate(`[...$('cards').children].map(it => it.querySelectorAll('.picks button').length)`);
        const picks = Array.from({ length: threads }, (_, thread) => numbers[6 + 12 * thread]);
        const pairs = { status: [0, status], cells: [wanted, shown_values], history: [history, shown_history], moves: [picks, can_move] };
        if (name.startsWith('examples/')) {
            const registers = await evaluate(`[...$('cards').children].map(card =>
                [...card.querySelectorAll('.values code')].map(it => it.textContent))`);
            pairs.registers = [registers.map((those, thread) => those.map(it => {
                const register = Number(it[1]);
                return `r${register} = ${numbers[6 + 12 * thread + 4 + register]}`;
            })), registers];
        }
        for (const [what, [expected, told]] of Object.entries(pairs)) {
            if (JSON.stringify(expected) !== JSON.stringify(told)) {
                tell(`${name}, move ${at}: ${what} ${JSON.stringify(told)} in place of ${JSON.stringify(expected)}`);
            }
        }
    }
}
