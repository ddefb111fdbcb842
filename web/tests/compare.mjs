// node --experimental-websocket compare.mjs PAGE PROGRAM REPOSITORY FOLDER: holds what the module in the page answers against what
// the program answers, for each bundle and source of examples/ and its folders, with its report and without, and tries the page
// (page.mjs). Pictures of it go into FOLDER. Says how many answers were compared; the status is 1 where one differs or the page
// fails. With PROGRAM `none` only the page is tried.
import { spawnSync } from 'node:child_process';
import { existsSync, readdirSync, readFileSync } from 'node:fs';
import { open } from './browser.mjs';
import { IDLE, states, try_old, try_page } from './page.mjs';

const [page, program, root, folder] = process.argv.slice(2);
const LIMIT = 3000;    // milliseconds for the program; what takes longer is left out, and counted
const COMMANDS = ['lint', 'serial', 'check', 'check --bound 60', 'check --bound 12 --serial 9', 'check --spec', 'check --source',
    'certify --bound 30', 'certify --bound 30 --source', 'explain', 'explain --spec', 'draw', 'draw --explain', 'trace', 'trace --setup', 'replay', 'shrink', 'spec', 'refute', 'witness',
    'conform', 'campaign --count', 'compile', 'commands', 'help', 'judge', '', 'nonsense'];
const faults = [];
const tell = fault => { faults.push(fault); console.log(fault); };

function cases() {
    const examples = `${root}/examples`, found = [];
    const files = readdirSync(examples, { recursive: true }).filter(name => /\.(bundle|lineup)$/.test(name)).sort();
    for (const file of files) {
        const text = readFileSync(`${examples}/${file}`, 'utf8'), report = `${examples}/${file.replace(/\.[a-z]*$/, '.report')}`;
        found.push([file, text]);
        if (existsSync(report)) found.push([`${file} with its report`, `${text}---\n${readFileSync(report, 'utf8')}`]);
    }
    return found;
}

async function compare(shown) {
    let compared = 0, left = 0;
    for (const [name, text] of cases()) {
        for (const words of COMMANDS) {
            const ran = spawnSync(program, words.split(' ').filter(word => word),
                { input: text, timeout: LIMIT, maxBuffer: 1 << 28 });
            if (ran.status === null) {
                left += 1;
                continue;
            }
            const said = await shown.evaluate(`ask(${JSON.stringify(words)}, ${JSON.stringify(text)})`);
            compared += 1;
            if (said.status !== ran.status || said.text !== ran.stdout.toString()) tell(`${name}: ${words} differs`);
        }
    }
    return `${compared} answers compared, ${faults.length} differ, ${left} left out (the program takes over ${LIMIT / 1000} s)`;
}

// Compares the states that were stepped to with those that the library built for this machine reports, if it is there.
function compare_states() {
    const library = `${root}/crates/lineup_c/out/liblineup.so`;
    if (!existsSync(library)) return `states are not compared, without ${library}`;
    const input = states.map(({ question }) => JSON.stringify(question) + '\n').join('');
    const ran = spawnSync('python3', [`${root}/web/tests/states.py`, library], { input, maxBuffer: 1 << 28 });
    const answers = ran.stdout.toString().trim().split('\n').map(line => JSON.parse(line));
    const differing = states.filter(({ told }, at) => JSON.stringify(told) !== JSON.stringify(answers[at]));
    for (const { question } of differing) tell(`lineup_state differs: ${question[2].trim()}, ${question[3]} moves`);
    return `${states.length} states compared, ${differing.length} differ`;
}

const shown = await open(`${page}#examples/locked-counter`);
if (await shown.until(IDLE)) {
    await try_page(shown, page, root, folder, tell);
    console.log(compare_states());
    if (program !== 'none') console.log(await compare(shown));
} else {
    tell(`the page does not start: ${await shown.evaluate(`document.getElementById('text').textContent`)}`);
}
await shown.close();
const old = await open(page, `WebAssembly.compile = async () => { throw new Error('unknown memory type'); }`);
await try_old(old, tell);
await old.close();
process.exit(faults.length > 0 ? 1 : 0);
