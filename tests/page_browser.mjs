// Tests the page in Chromium: page_browser.mjs CHROMIUM PAGE EXAMPLES PROBLEM... Each check prints a line, with 0 if it
// passed and 1 if not.
import fs from 'node:fs';
import os from 'node:os';
import path from 'node:path';
import { Browser } from './browser.mjs';
import { problemOf, transcript } from './page_problems.mjs';

const [program, page, examples, ...problems] = process.argv.slice(2);
const tell = (right, what) => console.log(right ? 0 : 1, `page: ${what}`);
const browser = new Browser(program);
await browser.open(page);
await browser.until('typeof listen === "function" && byId("form").onsubmit !== null');

// ---- the words of a problem, answered by the page's own worker

const base64 = data => JSON.stringify(Buffer.from(data).toString('base64'));

async function answerOf(words, data) {
  const bytes = `Uint8Array.from(atob(${base64(data)}), letter => letter.charCodeAt(0))`;
  const { answer, fault } = await browser.value(`ask(${JSON.stringify(words)}, ${bytes})`);
  return fault ?? transcript(answer);
}

async function tryProblem(folder) {
  const { words, bytes, wanted } = problemOf(folder);
  tell(await answerOf(words, bytes) === wanted, path.basename(folder));
}

// ---- the controls

const type = (id, text) => browser.value(`(() => {
  byId('${id}').value = ${JSON.stringify(text)};
  byId('${id}').dispatchEvent(new Event('input'));
})()`);
const paste = text => type('data', text);
const textOf = id => browser.value(`byId('${id}').textContent`);

// Chooses a test. Another test comes first, since options are kept as long as the test is the same.
async function choose(test) {
  for (const name of [test === 'runs' ? 'shift' : 'runs', test]) await browser.value(`byId('test-${name}').click()`);
}

// Sets a control to a value. Says whether the control exists and accepts the value.
const set = (id, value) => browser.value(`(() => {
  const control = byId(${JSON.stringify(id)});
  if (control === null) return false;
  control.value = ${JSON.stringify(value)};
  control.dispatchEvent(new Event('change', { bubbles: true }));
  return control.value === ${JSON.stringify(value)};
})()`);

const setColumns = columns => browser.value(`(() => {
  const columns = ${JSON.stringify(columns)}.map(column => String(column - 1));
  for (const box of byId('columns').querySelectorAll('[type=checkbox]')) box.checked = columns.includes(box.value);
  const selects = [...byId('columns').querySelectorAll('select')];
  selects.forEach((select, i) => { select.value = columns[i] ?? ''; });
  byId('columns').dispatchEvent(new Event('change', { bubbles: true }));
  return pickedColumns().join() === columns.join();
})()`);

async function run() {
  await browser.value('byId("report").textContent = ""; byId("form").requestSubmit()');
  await browser.until('byId("report").textContent !== "" || byId("refusal").textContent !== ""');
}

// The report, or the line of refusal.
async function reported() {
  return await textOf('report') || `${await browser.value('byId("refusal").querySelector("strong").textContent')}\n`;
}

// Sets the form to the words of a command. Says whether the controls can express them.
async function fill(words) {
  const [test, , ...options] = words;
  if (!await browser.value(`'${test}' in TESTS`)) return false;
  await choose(test);
  const hasTwo = await browser.value(`TESTS.${test}.options.includes('tested')`);
  for (const option of joined(options)) {
    const [, name, value] = option.match(/^--([a-z-]+)(?:=(.*))?$/);
    if (value === undefined) return false;
    const id = name === 'order' && hasTwo ? 'tested' : name;
    if (!(name === 'columns' ? await setColumns(value.split(',')) : await set(id, value))) return false;
  }
  return true;
}

// Options with their values after an equals sign, the separator and the columns first.
function joined(options) {
  const all = [];
  for (let i = 0; i < options.length; i += 1) {
    const next = options[i + 1];
    const takesNext = !options[i].includes('=') && next !== undefined && !next.startsWith('--');
    all.push(takesNext ? `${options[i]}=${next}` : options[i]);
    if (takesNext) i += 1;
  }
  const place = option => option.startsWith('--separator') ? 0 : option.startsWith('--columns') ? 1 : 2;
  return all.sort((a, b) => place(a) - place(b));
}

// ---- each example that the controls can express, pasted

async function tryExample(name) {
  const words = fs.readFileSync(path.join(examples, `${name}.words`), 'utf8').split('\n').slice(0, -1);
  const at = words.findIndex(word => word.endsWith('.csv') && fs.existsSync(path.join(examples, word)));
  if (at < 0) return false;
  await paste(fs.readFileSync(path.join(examples, words[at]), 'utf8').replace(/^\ufeff/, ''));
  await set('separator', '');
  if (!await fill([words[0], words[at], ...words.slice(1).filter(word => word !== words[at])])) return false;
  await run();
  const [report, rest] = fs.readFileSync(path.join(examples, `${name}.out`), 'utf8').split('-- standard error\n');
  const wanted = report + rest.replace(/-- status.*\n$/, '');
  tell(await reported() === wanted, `${name}, by the controls`);
  return true;
}

// ---- tables in various forms

const SIX = ['x,1', 'x,2', 'x,3', 'y,4', 'y,5', 'y,6'];
const six = (separator, end = '\n') => ['group,value', ...SIX].map(line => line.replace(',', separator) + end).join('');
const GREATER = 'greater 1/20 0.050000\n';

async function tryTable(what, text, test, wanted) {
  await paste(text);
  await choose(test);
  await run();
  tell((await reported()).includes(wanted), what);
}

async function tryTables() {
  await tryTable('tabs, as copied from a spreadsheet', six('\t', '\r\n'), 'ranksum', GREATER);
  await tryTable('semicolons', six(';'), 'ranksum', GREATER);
  await tryTable('fields in quotes', six('","').replace(/^|$(?=\n)/gm, '"').replace(/"$/, ''), 'ranksum', GREATER);
  const mixed = SIX.map((line, i) => `${i + 1},${line[2]},n${i},${line[0]}\n`).join('');
  await tryTable('columns chosen by what they look like', `id,value,note,group\n${mixed}`, 'ranksum', GREATER);
  await tryTable('an empty paste', '', 'ranksum', 'refused: row 1: no header\n');
  await tryTable('a header alone', 'group,value\n', 'ranksum', 'refused: row 1: ends too early\n');
  await tryTable('decimal commas', 'group;value\nx;1,5\ny;2,5\n', 'ranksum', 'refused: row 2 field 2: not a number\n');
  await tryTable('a missing cell', 'group,value\nx,1\nx,\ny,2\n', 'ranksum', 'refused: row 3 field 2: missing\n');
  await set('missing', 'drop');
  await run();
  tell((await reported()).includes('dropped 1\n'), 'a missing cell, left out');
  await tryTable('too few columns', 'value\n1\n2\n', 'ranksum', 'refused: ');
  const long = `group,value\n${'x,1\n'.repeat(300000)}`;
  await tryTable('a table that is too long', long, 'ranksum', 'refused: file longer than 1048576 bytes\n');
}

async function tryFile() {
  const file = path.join(os.tmpdir(), `exact page ${process.pid}.csv`);
  fs.writeFileSync(file, six(';'));
  const { root } = await browser.call('DOM.getDocument');
  const { nodeId } = await browser.call('DOM.querySelector', { nodeId: root.nodeId, selector: '#file' });
  await browser.call('DOM.setFileInputFiles', { files: [file], nodeId });
  await browser.until('chosen !== null && byId("data").value.startsWith("group;value")');
  await choose('ranksum');
  await run();
  tell((await reported()).includes(GREATER), 'a file');
  const command = `exact ranksum '${path.basename(file)}' --separator=semicolon`;
  tell(await textOf('command') === command, 'its command line');
  await browser.call('Runtime.evaluate', { expression: 'byId("copy").click()', userGesture: true });
  tell(await textOf('copy') === 'Copied', 'which is copied');
  fs.rmSync(file);
}

// Drops a file with these bytes on the page.
const drop = (name, bytes) => browser.value(`(() => {
  const dataTransfer = new DataTransfer();
  dataTransfer.items.add(new File([Uint8Array.from(${JSON.stringify([...bytes])})], ${JSON.stringify(name)}));
  document.dispatchEvent(new DragEvent('drop', { dataTransfer }));
})()`);

async function tryDrop() {
  await paste('nothing');
  await drop('-x.csv', Buffer.from(six('\t')));
  await browser.until('chosen !== null && byId("data").value.startsWith("group\\tvalue")');
  await choose('ranksum');
  await run();
  tell((await reported()).includes(GREATER), 'a file that is dropped');
  tell(await textOf('command') === 'exact ranksum ./-x.csv --separator=tab', 'whose name begins with a dash');
}

// ---- a first row that may be data

const NO_HEADER = 'c,300\nc,19\nt,17\nt,12\n';
const click = id => browser.value(`byId('${id}').click()`);
const isAsked = () => browser.value('!byId("doubt").hidden');

async function tryFirstRow() {
  await paste(NO_HEADER);
  await choose('ranksum');
  await browser.value('byId("form").requestSubmit()');
  tell(await isAsked() && await browser.value('byId("answer").hidden'), 'a first row that may be data is asked about');
  tell((await textOf('first-row')) === 'c, 300', 'and shown');
  tell(await browser.value('document.activeElement.id') === 'is-data', 'with the answer at hand');
  await click('is-data');
  const text = await browser.value('byId("data").value');
  tell(!await isAsked() && text === `column 1,column 2\n${NO_HEADER}`, 'a header is added');
  await run();
  tell((await reported()).includes('group 2 c\ngroup 2 t\n'), 'and all rows are data');
  await paste(NO_HEADER);
  await click('is-header');
  await run();
  tell((await reported()).includes('group 1 c\ngroup 2 t\n'), 'or the row is the header');
}

// A file keeps its bytes: its mark, and a letter that is no UTF-8.
async function tryFirstRowOfFile() {
  const mark = Buffer.from('\ufeff'), rows = Buffer.from('c;300\n\xe9;19\nc;17\n', 'latin1');
  await drop('rats.csv', Buffer.concat([mark, rows]));
  await browser.until('!byId("doubt").hidden');
  await click('is-data');
  await browser.until('chosen.name === "with-header-rats.csv"');
  const bytes = Buffer.from(await browser.value('[...chosen.bytes]'));
  tell(bytes.equals(Buffer.concat([mark, Buffer.from('column 1;column 2\n'), rows])), 'a file gets a header');
  await choose('ranksum');
  await run();
  const command = 'exact ranksum with-header-rats.csv --separator=semicolon';
  tell(await textOf('command') === command, 'and then another name');
}

// ---- a refusal, a stop, the picture, the keys

async function tryRefusal() {
  const wrong = six(',').replace('y,5', 'y,5 cm');
  await tryTable('a wrong number', wrong, 'ranksum', 'refused: row 6 field 2: not a number\n');
  const field = await browser.value('document.querySelector("#preview tr.marked td.marked").textContent');
  tell(field === '5 cm', 'its field is marked');
  const row = await browser.value('((it) => it.value.slice(it.selectionStart, it.selectionEnd))(byId("data"))');
  tell(row === 'y,5 cm', 'and its row');
  tell((await textOf('refusal')).includes('decimal comma'), 'with its help');
  await tryTable('and the next run', six(','), 'ranksum', GREATER);
  const marks = await browser.value('document.querySelectorAll("#preview .marked, #refusal p").length');
  tell(marks === 0, 'takes the marks away');
}

const LONG = `g,v\n${Array.from({ length: 48 }, (_, i) => `${'abcdef'[i % 6]},${(i * 7919) % 1009}\n`).join('')}`;

async function tryStop() {
  await paste(LONG);
  await choose('kw');
  await browser.value('byId("form").requestSubmit()');
  await browser.until('byId("clock").textContent > "0.3 s"');
  tell(await browser.value('!byId("stop").disabled && byId("answer").hidden'), 'a long run goes on');
  await browser.value('byId("stop").click()');
  await browser.until('byId("stop").disabled');
  tell((await textOf('state')).startsWith('Stopped after '), 'and is stopped');
  await tryTable('and then another', six(','), 'ranksum', GREATER);
}

async function tryPicture() {
  await tryTable('the six values', six(','), 'ranksum', GREATER);
  await browser.until('!byId("picture").hidden && byId("stop").disabled');
  const bars = kind => browser.value(`document.querySelectorAll('#drawing .${kind}').length`);
  tell(await bars('bar') === 8 && await bars('tail') === 2, 'their picture');
  await browser.value('byId("tails").querySelector("[value=greater]").click()');
  tell(await bars('bar') === 9 && await bars('tail') === 1, 'and that of another tail');
  tell((await textOf('caption')).includes('The marked tail is greater, 1/20 0.050000.'), 'with its caption');
}

const DRAWN = {
  six: ['ranksum', 'raw', 'ansari', 'mood', 'savage', 'median'],
  sleep: ['signedrank', 'sign', 'rawsigned'],
  infarction: ['mcnemar'],
  mucociliary: ['kw'],
  motivation: ['jt'],
  wechsler: ['umbrella'],
  rounding: ['friedman', 'page'],
  diphtheria: ['cochran'],
  tea: ['fisher'],
  mehta_patel: ['fisher'],
  ulcer: ['linear'],
  rabbits: ['strata', 'zelen'],
  teeth: ['stratranksum'],
  tuna: ['kendall'],
  queue: ['runs'],
};

// Each test of an example marks its tails: their weights sum to the numerators of the report.
async function tryTails(name, test) {
  await paste(fs.readFileSync(path.join(examples, `${name}.csv`), 'utf8'));
  await choose(test);
  if (test === 'umbrella') await set('peak', '3');
  await run();
  await browser.until('!byId("picture").hidden && byId("stop").disabled');
  for (const tail of await browser.value('[...byId("tails").querySelectorAll("input")].map(one => one.value)')) {
    await browser.value(`byId('tails').querySelector('[value=${tail}]').click()`);
    tell((await textOf('caption')).includes(`The marked tail is ${tail}, `), `${name}: ${test}, ${tail} is marked`);
  }
}

async function press(key, modifiers = 0) {
  for (const kind of ['rawKeyDown', 'keyUp']) {
    await browser.call('Input.dispatchKeyEvent', { type: kind, key, code: key, modifiers });
  }
}

const CONTROL = 2;

async function tryKeys() {
  await paste(six(','));
  await choose('ranksum');
  await browser.value('byId("report").textContent = ""; byId("data").focus()');
  await press('Enter', CONTROL);
  await browser.until('byId("report").textContent !== ""');
  tell((await reported()).includes(GREATER), 'control and enter run');
  await paste(LONG);
  await choose('kw');
  await press('Enter', CONTROL);
  await browser.until('byId("clock").textContent > "0.3 s"');
  await press('Escape');
  await browser.until('byId("stop").disabled');
  tell((await textOf('state')).startsWith('Stopped after '), 'escape stops');
}

async function tryFind() {
  const shown = async words => {
    await type('find', words);
    const isShown = 'choice => choice.getClientRects().length > 0';
    const choices = `[...document.querySelectorAll('.choice')].filter(${isShown})`;
    return browser.value(`${choices}.map(choice => choice.querySelector('input').value)`);
  };
  await choose('fisher');
  tell((await shown('npar m-w')).join() === 'ranksum', 'a test by its name in SPSS');
  await browser.value('byId("find").focus()');
  await press('Enter');
  tell(await browser.value('testNow().name') === 'ranksum', 'which enter chooses');
  tell((await shown('wilcox.test paired')).join() === 'signedrank', 'and in R');
  tell((await shown('kruskal wallis')).join() === 'kw', 'and without its hyphen');
  tell((await textOf('search-said')).includes('chosen test is still: Wilcoxon rank-sum'), 'while another is still chosen');
  tell((await shown('larger values')).includes('ranksum'), 'and by its question');
  tell(await textOf('search-said') === '', 'which is the chosen one');
  tell((await shown('chisq.test')).length === 0, 'a test that is not here is not found');
  tell((await textOf('search-said')).startsWith('No test on this page is called “chisq.test”.'), 'and that is said');
  tell((await shown('--alternative')).length === 24, 'an option is no test');
  tell((await textOf('search-said')).startsWith('“--alternative” is “Tail” in step 3.'), 'but is elsewhere');
  tell((await shown('')).length === 24 && await textOf('search-said') === '', 'and all of them');
}

// A decimal is taken for the fraction that it is.
async function tryFractions() {
  await paste('p,q\n5,1\n1,5\n');
  await choose('fisher');
  await set('odds', '1.5');
  await run();
  tell(await textOf('command') === 'exact fisher data.csv --odds=3/2', 'a decimal is a fraction');
  tell((await textOf('reading')).includes('odds ratio above 3/2'), 'which the reading names');
}

// Every control has an accessible name.
async function tryNames() {
  const { nodes } = await browser.call('Accessibility.getFullAXTree');
  const kinds = ['button', 'textbox', 'searchbox', 'combobox', 'radio', 'checkbox'];
  const controls = nodes.filter(node => kinds.includes(node.role?.value));
  tell(controls.length > 30 && controls.every(node => (node.name?.value ?? '') !== ''), 'each control has a name');
}

// ---- requests, and a browser that lacks what the page needs

async function tryLeaving() {
  const refused = await browser.value(`new Promise(resolve => {
    document.addEventListener('securitypolicyviolation', event => resolve(event.violatedDirective), { once: true });
    fetch('http://127.0.0.1:9/').catch(() => {});
    setTimeout(() => resolve('none'), 5000);
  })`);
  tell(refused === 'connect-src', 'the policy refuses an address');
  const own = url => url.startsWith('file://') || url.startsWith('blob:') || url === 'http://127.0.0.1:9/';
  tell(browser.requests.length > 0 && browser.requests.every(own), 'no request leaves');
  const complaints = browser.complaints.filter(text => !text.includes('127.0.0.1:9'));
  tell(complaints.length === 0, `no complaint ${complaints.join()}`);
}

async function tryWithoutWideMemory() {
  await browser.call('Page.addScriptToEvaluateOnNewDocument', { source: 'WebAssembly.validate = () => false;' });
  await browser.call('Page.reload');
  await browser.until('document.readyState === "complete" && byId("run").disabled');
  tell((await textOf('state')).includes('64-bit memories'), 'a browser without 64-bit memories is told');
}

for (const folder of problems) await tryProblem(folder);
let said = 0;
for (const file of fs.readdirSync(examples)) {
  if (file.endsWith('.words')) said += await tryExample(file.slice(0, -6));
}
tell(said >= 45, `${said} examples by the controls`);
await tryTables();
await tryFile();
await tryDrop();
await tryFirstRow();
await tryFirstRowOfFile();
await tryRefusal();
await tryStop();
await tryPicture();
for (const [name, tests] of Object.entries(DRAWN)) {
  for (const test of tests) await tryTails(name, test);
}
await tryKeys();
await tryFind();
await tryFractions();
await tryNames();
await tryLeaving();
await tryWithoutWideMemory();
await browser.close();
