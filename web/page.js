'use strict';
// The page: runs the worker, shows its answer, and stops it.

// ---- the worker

// Whether the browser has 64-bit memories: a module that has one, with no pages.
const HAS_WIDE_MEMORY = globalThis.WebAssembly?.validate(Uint8Array.of(0, 97, 115, 109, 1, 0, 0, 0, 5, 3, 1, 4, 0));
const WORKER = URL.createObjectURL(new Blob([byId('worker').textContent], { type: 'text/javascript' }));
let worker = null;
let waiting = null;

function startWorker() {
  worker = new Worker(WORKER);
  worker.onmessage = ({ data }) => waiting?.(data);
  worker.onerror = event => waiting?.({ fault: event.message ?? 'the worker did not start' });
  worker.postMessage({ packed: byId('module').textContent.trim() });
}

// The answer of one run, or its fault, or the fact that it was stopped.
function ask(words, bytes) {
  if (waiting !== null) stop();
  return new Promise(resolve => {
    waiting = data => {
      waiting = null;
      resolve(data);
    };
    worker.postMessage({ words, bytes });
  });
}

// Ends a run, and the worker with it. A new worker is ready for the next run.
function stop() {
  worker.terminate();
  waiting?.({ stopped: true });
  startWorker();
}

// ---- the clock

let ticking;

function seconds(from) {
  const passed = (performance.now() - from) / 1000;
  return `${passed.toFixed(passed < 1 ? 2 : 1)} s`;
}

function startClock(what) {
  const from = performance.now();
  byId('state').textContent = what;
  byId('stop').disabled = false;
  clearInterval(ticking);
  ticking = setInterval(() => { byId('clock').textContent = seconds(from); }, 100);
  byId('clock').textContent = '';
  return from;
}

function stopClock(said) {
  clearInterval(ticking);
  byId('clock').textContent = '';
  byId('state').textContent = said;
  byId('stop').disabled = true;
}

// ---- a run

// A run that a later one has replaced shows nothing.
let runs = 0;

async function run(event) {
  event.preventDefault();
  if (worker === null) return;
  readAgain();
  if (isDoubtful()) return askFirst();
  runs += 1;
  const number = runs, asked = askedNow();
  clearAnswer();
  const from = startClock('Running …');
  const data = await ask(asked.words, asked.bytes), took = seconds(from);
  const record = await recordOf(asked);
  if (number !== runs) return;
  if (data.stopped) return stopClock(`Stopped after ${took}, without an answer.`);
  const isAnswered = data.answer?.status === 0;
  stopClock(data.fault ? 'Ended by an error.' : isAnswered ? `Answered in ${took}.` : 'Refused.');
  showAnswer(asked, data, record);
  byId('answer').scrollIntoView({ block: 'nearest' });
  if (isAnswered && asked.test !== 'shift') await runForPicture(asked, number, took);
}

// A first row that may be data is decided on before a run.
function askFirst() {
  runs += 1;
  if (waiting !== null) stop();
  clearAnswer();
  stopClock('Please answer the question about the first row.');
  byId('doubt').scrollIntoView({ block: 'nearest' });
  byId('is-data').focus();
}

const SHOWN = ['asked', 'record', 'refusal', 'reading', 'tails', 'drawing', 'caption', 'report', 'command'];

function clearAnswer() {
  byId('answer').hidden = true;
  byId('picture').hidden = true;
  SHOWN.forEach(id => byId(id).replaceChildren());
}

function showAnswer(asked, { answer, fault }, record) {
  byId('answer').hidden = false;
  byId('asked').textContent = `${TESTS[asked.test].question} ${TESTS[asked.test].title}.`;
  byId('command').textContent = commandOf(asked.words);
  byId('copy').textContent = 'Copy';
  byId('record').textContent = record;
  byId('whole').hidden = answer?.status !== 0;
  if (fault) return showRefusal(`No answer: ${fault}`, 'The program on the command line may give one.');
  if (answer.status === 0) return showReading(asked, answer.report);
  showRefusal(answer.line.trim(), helpOf(answer.line));
  const place = placeOf(answer.line);
  if (place) markRow(place);
}

function showRefusal(line, help) {
  byId('refusal').replaceChildren(made('p', {}, made('strong', {}, line)), made('p', {}, help));
}

function showReading(asked, text) {
  byId('report').textContent = text;
  const { sentences, tails } = readingOf(readReport(text), asked);
  const lines = sentences.map(sentence => made('p', {}, sentence));
  byId('reading').replaceChildren(...lines, ...(tails.length > 0 ? [tableOf(tails)] : []));
}

// A row for each tail, with its p-value and what it means.
function tableOf(tails) {
  const head = ['Tail', 'p-value', 'Meaning'].map(name => made('th', { scope: 'col' }, name));
  const rows = tails.map(({ name, said, decimals, fraction }) => {
    const p = made('div', { className: 'p' }, `p = ${decimals}`), exact = made('div', { className: 'fraction' }, fraction);
    return made('tr', {}, made('th', { scope: 'row' }, name), made('td', {}, p, exact), made('td', {}, said));
  });
  return made('table', {}, made('thead', {}, made('tr', {}, ...head)), made('tbody', {}, ...rows));
}

// What a record of the run needs: the time, and the bytes that were read.
async function recordOf(asked) {
  const digest = await crypto.subtle?.digest('SHA-256', asked.bytes);
  const sum = digest && [...new Uint8Array(digest)].map(byte => byte.toString(16).padStart(2, '0')).join('');
  const name = chosen === null ? 'The pasted table' : chosen.name;
  return `${name}: ${asked.bytes.length} bytes${sum ? `, SHA-256 ${sum}` : ''}. ${new Date().toLocaleString('en-GB')}.`;
}

// ---- the picture

// The distribution comes from a second run, so that the answer does not wait for it.
async function runForPicture(asked, number, took) {
  const from = startClock('Drawing the distribution …');
  const data = await ask([...asked.words, '--distribution'], asked.bytes);
  if (number !== runs) return;
  const isThere = data.answer?.status === 0;
  const picture = data.stopped ? `; the picture was stopped after ${seconds(from)}` : '; there is no picture';
  stopClock(`Answered in ${took}${isThere ? '' : picture}.`);
  if (isThere) showPicture(readReport(data.answer.report), asked);
}

function showPicture(report, asked) {
  const tails = report.tails.map(tail => tail.name);
  const choices = tails.map(name => labelled(made('input', { type: 'radio', name: 'marked', value: name }), name));
  byId('tails').replaceChildren(...choices);
  byId('picture').hidden = false;
  const draw = tail => {
    const { svg, caption } = pictureOf(report, tail, asked.test, Math.max(byId('drawing').clientWidth, 300));
    byId('drawing').replaceChildren(svg);
    byId('caption').textContent = caption;
  };
  const first = tails.includes('two') ? 'two' : tails[0];
  byId('tails').onchange = event => draw(event.target.value);
  byId('tails').querySelector(`[value=${first}]`).checked = true;
  draw(first);
}

// ---- what the controls do

function listen() {
  byId('form').onsubmit = run;
  byId('stop').onclick = stop;
  byId('print').onclick = () => window.print();
  byId('copy').onclick = copyCommand;
  byId('find').oninput = () => {
    findChoices();
    byId('choices').scrollTop = 0;
  };
  byId('find').onkeydown = chooseFirst;
  byId('is-data').onclick = addHeader;
  byId('is-header').onclick = confirmHeader;
  byId('choices').onchange = () => {
    findChoices();
    showColumns();
    showPreview();
  };
  byId('columns').onchange = () => {
    showOptions();
    showPreview();
  };
  byId('options').onchange = showPeaks;
  byId('separator').onchange = readAgain;
  byId('file').onchange = () => byId('file').files[0] && takeFile(byId('file').files[0]);
  byId('data').oninput = () => {
    chosen = null;
    byId('file').value = '';
    readAgain();
  };
  listenToDrops();
  document.onkeydown = event => {
    if (event.key === 'Enter' && (event.ctrlKey || event.metaKey)) byId('form').requestSubmit();
    if (event.key === 'Escape' && !byId('stop').disabled) stop();
  };
}

function copyCommand() {
  getSelection().selectAllChildren(byId('command'));
  byId('copy').textContent = document.execCommand('copy') ? 'Copied' : 'Selected: copy it';
}

// Enter chooses the first test that was found, and runs nothing.
function chooseFirst(event) {
  if (event.key !== 'Enter' || event.ctrlKey || event.metaKey) return;
  event.preventDefault();
  byId('choices').querySelector('.choice:not([hidden]) input')?.click();
}

// A file that is dropped anywhere on the page becomes the table.
function listenToDrops() {
  const over = isOver => event => {
    event.preventDefault();
    byId('data').classList.toggle('over', isOver);
  };
  document.ondragover = over(true);
  document.ondragleave = over(false);
  document.ondrop = event => {
    over(false)(event);
    if (event.dataTransfer.files.length > 0) takeFile(event.dataTransfer.files[0]);
  };
}

showChoices();
readAgain();
showChosen();
listen();
if (HAS_WIDE_MEMORY) {
  startWorker();
} else {
  byId('run').disabled = true;
  byId('state').textContent = 'The proved program needs 64-bit memories of WebAssembly, which this browser lacks. Use a '
    + 'newer browser, or the program on the command line.';
}
