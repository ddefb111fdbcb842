'use strict';
// The editor: the colours of both languages, by the grammar that editors/vscode has, and the faults and steps on their lines.

const $ = id => document.getElementById(id);

// Makes an element with a class and a text; a text is never read as HTML.
function element(name, kind, text, parent) {
    const made = document.createElement(name);
    if (kind) made.className = kind;
    if (text !== undefined) made.textContent = text;
    if (parent) parent.append(made);
    return made;
}

// Shows a text whose words between backticks are code.
function show_words(parent, words) {
    parent.replaceChildren();
    for (const [index, part] of words.split('`').entries()) {
        if (index % 2 === 1) element('code', '', part, parent);
        else parent.append(part);
    }
}

const STYLES = [
    ['comment', 'comment'], ['meta', 'meta'], ['constant.numeric', 'number'], ['constant', 'atom'], ['entity', 'def'],
    ['variable.language', 'builtin'], ['variable', 'variable'], ['storage', 'keyword'], ['keyword.operator', 'operator'],
    ['keyword', 'keyword'], ['support', 'keyword'], ['punctuation', 'bracket'],
];
const style_of = name => STYLES.find(([scope]) => name.startsWith(scope))?.[1] ?? null;

// At each place the first rule that matches gives the colour. A rule with captures gives each of them its own.
CodeMirror.defineMode('lineup', () => {
    const rules = JSON.parse($('grammar').textContent).patterns.map(({match, name, captures}) =>
        ({match: new RegExp(match, 'y'), style: name ? style_of(name) : null, captures}));
    return {
        startState: () => ({declared: ''}),
        token(stream, state) {
            if (stream.eatSpace()) return null;
            if (state.declared && stream.match(state.declared)) {
                state.declared = '';
                return 'def';
            }
            state.declared = '';
            for (const {match, style, captures} of rules) {
                match.lastIndex = stream.pos;
                const found = match.exec(stream.string);
                if (!found || found[0] === '') continue;
                if (captures) {
                    state.declared = found[2];
                    stream.match(found[1]);
                    return 'keyword';
                }
                stream.pos += found[0].length;
                return style;
            }
            stream.next();
            return null;
        },
        lineComment: '#',
    };
});

const editor = CodeMirror($('editor'), {
    mode: 'lineup',
    lineNumbers: true,
    gutters: ['faults-gutter', 'CodeMirror-linenumbers', 'threads-gutter'],
    indentUnit: 4,
    smartIndent: false,
    viewportMargin: 40,
    screenReaderLabel: 'Bundle: a component, a line of three hyphens, and a matrix',
    spellcheck: false,
    autocorrect: false,
    autocapitalize: false,
    // Tab leaves the editor, so that the page works with the keyboard alone
    extraKeys: {Tab: false, 'Shift-Tab': false, 'Ctrl-/': 'toggleComment', 'Cmd-/': 'toggleComment'},
});

// ---- faults

let marked_lines = [];

function clear_faults() {
    editor.clearGutter('faults-gutter');
    for (const line of marked_lines) editor.removeLineClass(line, 'background');
    marked_lines = [];
    $('faults').replaceChildren();
}

// What `lint` prints, as `{line, kind, words}`.
function faults_of(text) {
    return [...text.matchAll(/^line (\d+): (warning: )?(.*)$/gm)].map(([, line, warning, words]) =>
        ({line: Number(line), kind: warning ? 'warning' : 'error', words}));
}

function mark_faults(faults) {
    clear_faults();
    for (const {line, kind, words} of faults) {
        const at = Math.min(line, editor.lineCount()) - 1;
        const mark = element('span', `fault-mark ${kind}`, kind === 'error' ? '✖' : '!');
        mark.title = words;
        editor.setGutterMarker(at, 'faults-gutter', mark);
        marked_lines.push(editor.addLineClass(at, 'background', `fault-line ${kind}`));
        const entry = element('li', kind, undefined, $('faults'));
        const link = element('button', '', undefined, entry);
        show_words(link, `line ${line}: ${kind === 'warning' ? 'warning: ' : ''}${words}`);
        link.onclick = () => {
            editor.setCursor(at, 0);
            editor.scrollIntoView(null, 80);
            editor.focus();
        };
    }
}

// ---- where the threads are

let stepped_lines = [];

// Marks each `[line, thread]`, with the line counted from 1.
function mark_threads(places) {
    editor.operation(() => {
        editor.clearGutter('threads-gutter');
        for (const line of stepped_lines) editor.removeLineClass(line, 'wrap', 'step-line');
        stepped_lines = [];
        const by_line = new Map();
        for (const [line, thread] of places) by_line.set(line, [...by_line.get(line) ?? [], thread]);
        for (const [line, threads] of by_line) {
            if (line < 1 || line > editor.lineCount()) continue;
            const mark = element('span', 'threads');
            for (const thread of threads) element('span', `badge t${thread}`, threads.length > 1 ? thread : `T${thread}`, mark);
            editor.setGutterMarker(line - 1, 'threads-gutter', mark);
            stepped_lines.push(editor.addLineClass(line - 1, 'wrap', 'step-line'));
        }
    });
}
