// A page in a headless Chromium, spoken to over its own protocol. Run node with --experimental-websocket.
import { spawn } from 'node:child_process';
import { mkdtempSync, rmSync, writeFileSync } from 'node:fs';
import { tmpdir } from 'node:os';
import { join } from 'node:path';

export const wait = ms => new Promise(done => setTimeout(done, ms));

// The socket of the browser's one page, once it has one.
async function socket_of(port) {
    for (let tries = 0; tries < 100; tries++) {
        try {
            const pages = await (await fetch(`http://127.0.0.1:${port}/json`)).json();
            const page = pages.find(it => it.type === 'page');
            if (page) return page.webSocketDebuggerUrl;
        } catch { /* the browser is not there yet */ }
        await wait(100);
    }
    throw new Error('the browser does not answer');
}

// Opens a page, after the script `before`, if there is one, has run in it.
export async function open(url, before) {
    const port = 9300 + Math.floor(Math.random() * 500), profile = mkdtempSync(join(tmpdir(), 'lineup-page-'));
    const browser = spawn('chromium', ['--headless=new', '--no-sandbox', '--disable-gpu', '--hide-scrollbars',
        `--remote-debugging-port=${port}`, `--user-data-dir=${profile}`, 'about:blank'], { stdio: 'ignore' });
    const socket = new WebSocket(await socket_of(port));
    await new Promise(done => { socket.onopen = done; });
    const asked = new Map(), faults = [];
    let number = 0;
    socket.onmessage = ({ data }) => {
        const message = JSON.parse(data);
        if (message.id) {
            asked.get(message.id)(message);
            asked.delete(message.id);
        } else if (/exceptionThrown|Log.entryAdded/.test(message.method)) {
            faults.push(JSON.stringify(message.params).slice(0, 400));
        }
    };
    const send = (method, params = {}) => new Promise(done => {
        number += 1;
        asked.set(number, done);
        socket.send(JSON.stringify({ id: number, method, params }));
    });
    for (const domain of ['Runtime', 'Page', 'Log']) await send(`${domain}.enable`);
    if (before) await send('Page.addScriptToEvaluateOnNewDocument', { source: before });
    await send('Page.navigate', { url });

    // What an expression of the page is, once it is known.
    const evaluate = async expression => {
        const { result } = await send('Runtime.evaluate', { expression, awaitPromise: true, returnByValue: true });
        if (result.exceptionDetails) throw new Error(JSON.stringify(result.exceptionDetails).slice(0, 500));
        return result.result.value;
    };
    // Whether the expression holds within so many milliseconds.
    const until = async (expression, most = 20000) => {
        for (let waited = 0; waited < most; waited += 50) {
            if (await evaluate(expression)) return true;
            await wait(50);
        }
        return false;
    };
    const shot = async (file, { width, height, dark = false, mobile = false }) => {
        await send('Emulation.setDeviceMetricsOverride', { width, height, deviceScaleFactor: 1, mobile });
        const value = dark ? 'dark' : 'light';
        await send('Emulation.setEmulatedMedia', { features: [{ name: 'prefers-color-scheme', value }] });
        await wait(300);
        const { result } = await send('Page.captureScreenshot', { captureBeyondViewport: false });
        writeFileSync(file, Buffer.from(result.data, 'base64'));
    };
    // Types a text where the focus is, and presses a key.
    const type = text => send('Input.insertText', { text });
    const press = async (key, { control = false } = {}) => {
        const text = control ? undefined : key === 'Enter' ? '\r' : key.length === 1 ? key : undefined;
        const codes = { ArrowLeft: 37, ArrowRight: 39, Home: 36, End: 35, Tab: 9, Enter: 13 };
        const given = { key, code: key, windowsVirtualKeyCode: codes[key] ?? key.charCodeAt(0), text, modifiers: control ? 2 : 0 };
        await send('Input.dispatchKeyEvent', { type: text ? 'keyDown' : 'rawKeyDown', ...given });
        await send('Input.dispatchKeyEvent', { type: 'keyUp', ...given });
    };
    const close = async () => {
        socket.close();
        browser.kill();
        await wait(300);
        rmSync(profile, { recursive: true, force: true });
    };
    return { evaluate, until, shot, type, press, faults, close };
}
