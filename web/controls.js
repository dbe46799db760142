'use strict';
// The controls of the page: the table, the question, the columns and the options, and the command that they make.

const byId = id => document.getElementById(id);

// An element with its properties and its content.
function made(name, properties = {}, ...inside) {
  const element = document.createElement(name);
  for (const [property, value] of Object.entries(properties)) {
    if (property in element) element[property] = value;
    else element.setAttribute(property, value);
  }
  element.append(...inside);
  return element;
}

// A control with its label and the option of the program that it sets.
function labelled(label, control, option) {
  return made('label', {}, label, ' ', control, ...(option ? [' ', made('code', {}, option)] : []));
}

function selectOf(id, choices, value) {
  const select = made('select', { id }, ...choices.map(([word, text]) => new Option(text ?? word, word)));
  select.value = value;
  return select;
}

// ---- the table

// A file that was dropped or chosen, with its bytes unchanged, until the text is edited.
let chosen = null;
let table = [];
// The first row that was confirmed to be a header, as JSON.
let confirmed = '';

const separatorWord = () => byId('separator').value || separatorOf(byId('data').value);
const firstRow = () => JSON.stringify(table[0]?.cells);
const headers = () => (table[0]?.cells ?? []).map((name, place) => name.trim() || `column ${place + 1}`);

const LONGEST_FILE = 1048576;

// Of a file that is too long, enough is read for the program to say so.
async function takeFile(file) {
  chosen = { name: file.name, bytes: new Uint8Array(await file.slice(0, LONGEST_FILE + 1).arrayBuffer()) };
  byId('data').value = new TextDecoder().decode(chosen.bytes);
  confirmed = '';
  readAgain();
}

function readAgain() {
  const before = firstRow();
  table = rowsOf(byId('data').value, SEPARATORS[separatorWord()]);
  const rows = Math.max(table.length - 1, 0);
  byId('found').textContent = table.length === 0 ? 'No rows yet'
    : `${chosen ? `${chosen.name}: ` : ''}${rows} ${rows === 1 ? 'row' : 'rows'} below the header, ${headers().length} `
      + `${headers().length === 1 ? 'column' : 'columns'}, separated by ${separatorWord()}s`;
  showDoubt();
  if (firstRow() !== before) showColumns();
  else showOptions();
  showPreview();
}

const isDoubtful = () => mayBeData(table) && firstRow() !== confirmed;

// Asks whether the first row is data, where it looks like data.
function showDoubt() {
  byId('doubt').hidden = !isDoubtful();
  byId('first-row').textContent = isDoubtful() ? table[0].cells.join(', ') : '';
}

function confirmHeader() {
  confirmed = firstRow();
  showDoubt();
}

// Puts a header above a first row that is data. A file keeps its own bytes below it, and gets a name of its own.
async function addHeader() {
  const header = headerFor(table, SEPARATORS[separatorWord()]);
  if (chosen !== null) {
    const { name, bytes } = chosen, mark = startsWithMark(bytes) ? 3 : 0;
    return takeFile(new File([bytes.slice(0, mark), header, bytes.slice(mark)], `with-header-${name}`));
  }
  byId('data').value = byId('data').value.replace(/^\ufeff?/, start => start + header);
  readAgain();
}

// Whether bytes begin with the byte order mark of UTF-8.
const startsWithMark = bytes => bytes[0] === 0xef && bytes[1] === 0xbb && bytes[2] === 0xbf;

const marks = isMarked => ({ className: isMarked ? 'marked' : '' });

// The first rows, or those around a marked row, in which a field may be marked too. Rows and fields are counted from 1.
function showPreview(marked) {
  if (table.length === 0) return byId('preview').replaceChildren();
  const roles = pickedColumns();
  const head = headers().map((name, place) => made('th', { scope: 'col' }, name, ...roleOf(roles, place)));
  const from = marked ? Math.max(marked.row - 3, 1) : 1;
  const body = table.slice(from, from + 5).map(({ cells }, i) => {
    const isMarked = marked?.row === from + i + 1;
    const shown = cells.map((cell, place) => made('td', marks(isMarked && marked.field === place + 1), cell));
    return made('tr', marks(isMarked), made('th', { scope: 'row' }, String(from + i + 1)), ...shown);
  });
  const first = made('tr', marks(marked?.row === 1), made('th', { scope: 'col' }, '1'), ...head);
  const more = table.length > from + 5 ? [made('caption', {}, `rows ${from + 1} to ${from + 5} of ${table.length}`)] : [];
  byId('preview').replaceChildren(made('table', {}, ...more, made('thead', {}, first), made('tbody', {}, ...body)));
}

function roleOf(roles, place) {
  const names = roles.map((column, i) => column === place ? fieldNames()[i] : '').filter(name => name !== '');
  return names.length > 0 ? [made('span', {}, names.join(', '))] : [];
}

// Marks the row in the text as well.
function markRow(place) {
  showPreview(place);
  const row = table[place.row - 1];
  if (row) byId('data').setSelectionRange(row.from, row.to);
}

// ---- the question

const namesElsewhere = () => JSON.parse(byId('names').textContent);

function showChoices() {
  const elsewhere = namesElsewhere(), groups = new Map();
  for (const test of Object.values(TESTS)) {
    const names = Object.entries(elsewhere[test.name] ?? {}).map(([where, name]) => `${where}: ${name}`);
    const id = `test-${test.name}`;
    const choice = made('div', { className: 'choice' },
      made('input', { type: 'radio', name: 'test', id, value: test.name, checked: test.name === 'ranksum' }),
      made('label', { htmlFor: id }, test.question,
        made('span', { className: 'names' }, made('code', {}, test.name), ` ${[test.title, ...names].join(' · ')}`)));
    if (!groups.has(test.group)) groups.set(test.group, made('div', {}, made('h3', {}, test.group)));
    groups.get(test.group).append(choice);
  }
  byId('choices').replaceChildren(...groups.values());
}

// Shows the choices that are found, with their headings.
function findChoices() {
  const text = byId('find').value, option = optionFound(text);
  const found = option === undefined ? testsFound(text, namesElsewhere()) : Object.keys(TESTS);
  for (const group of byId('choices').children) {
    for (const choice of group.querySelectorAll('.choice')) {
      choice.hidden = !found.includes(choice.querySelector('input').value);
    }
    group.hidden = group.querySelector('.choice:not([hidden])') === null;
  }
  byId('search-said').textContent = searchSaid(text.trim(), option, found);
}

// What a search says beside its list: where an option is whose name was typed, that there is no such test, or that the test
// which is chosen is none of those found.
function searchSaid(text, option, found) {
  if (option !== undefined) return `“${text}” is ${option}`;
  const test = testNow();
  if (found.includes(test.name)) return '';
  const still = `The chosen test is still: ${test.title}.`;
  return found.length > 0 ? still : `No test on this page is called “${text}”. ${still}`;
}

// Scrolls the list, not the page, to the chosen test.
function showChosen() {
  const choice = document.querySelector('.choice:has(:checked)');
  byId('choices').scrollTop = choice.offsetTop - 40;
}

const testNow = () => TESTS[document.querySelector('[name=test]:checked').value];

// ---- the columns

function fieldNames() {
  const layout = LAYOUTS[testNow().layout];
  const numbered = (_, i) => layout.most > 8 ? layout.of : `${layout.of} ${i + 1}`;
  return layout.fields ?? headers().slice(0, layout.most).map(numbered);
}

// A choice of column for each field of the layout, or a box for each column of a table of counts.
function showColumns() {
  const test = testNow(), layout = LAYOUTS[test.layout], likely = likelyColumns(layout, table);
  byId('layout').textContent = `${test.title}: each row holds ${layout.row}.`;
  const columns = headers().map((name, place) => [String(place), `${place + 1}: ${name}`]);
  byId('columns').replaceChildren(...(layout.most > 8 ? boxesOf(columns, likely) : selectsOf(layout, columns, likely)));
  showOptions();
}

function selectsOf(layout, columns, likely) {
  const least = layout.least ?? layout.fields.length - (layout.optional ?? 0);
  return fieldNames().map((name, i) => {
    const choices = i >= least ? [['', '–'], ...columns] : columns;
    return labelled(name, selectOf(`column-${i}`, choices, String(likely[i] ?? '')));
  });
}

function boxesOf(columns, likely) {
  const boxes = columns.map(([place, name]) => labelled(name,
    made('input', { type: 'checkbox', value: place, checked: likely.includes(Number(place)) })));
  return [made('fieldset', { className: 'row' }, made('legend', {}, 'Columns of counts'), ...boxes)];
}

// The places of the chosen columns, counted from 0.
function pickedColumns() {
  const picked = byId('columns').querySelectorAll('select, input:checked');
  return [...picked].map(it => it.value).filter(value => value !== '').map(Number);
}

// ---- the options

function asText(id, placeholder, value = '') {
  return made('input', { id, placeholder, value, size: Math.max(value.length, 12), autocomplete: 'off' });
}

// The column of labels, and its labels.
const labelColumn = () => pickedColumns()[testNow().layout === 'stratified' ? 1 : 0];
const labelsNow = () => labelsOf(table, labelColumn());

const SCORES = [['', 'wilcoxon'], ['ansari'], ['mood'], ['savage'], ['median'], ['raw']];
const MISSING = [['', 'refuse the table'], ['drop', 'leave them out']];

// For each option: its control, and its value if this differs from the program's default.
const OPTIONS = {
  tail: {
    control: () => labelled('Tail', selectOf('tail', [['', 'all'], ...testNow().tails.map(tail => [tail])], ''), '--tail'),
    value: () => byId('tail').value,
  },
  tested: {
    control: () => labelled('Second sample', selectOf('tested', ...testedChoices()), '--order'),
    value: () => byId('tested').value,
  },
  order: {
    control: () => labelled('Order of the groups', asText('order', 'A,B,C', labelsNow().join(',')), '--order'),
    value: () => byId('order').value === labelsNow().join(',') ? '' : byId('order').value,
  },
  scores: {
    control: () => labelled('Scores', selectOf('scores', SCORES, ''), '--scores'),
    value: () => byId('scores').value,
  },
  peak: {
    control: () => labelled('Peak', selectOf('peak', peakChoices(labelsNow()), ''), '--peak'),
    value: () => byId('peak').value,
  },
  'row-scores': {
    control: () => labelled('Row scores', asText('row-scores', '1,2,3'), '--row-scores'),
    value: () => byId('row-scores').value,
  },
  'column-scores': {
    control: () => labelled('Column scores', asText('column-scores', '1,2,3'), '--column-scores'),
    value: () => byId('column-scores').value,
  },
  odds: {
    control: () => labelled('Odds ratio', asText('odds', '1/1'), '--odds'),
    value: () => asFraction(byId('odds').value),
  },
  miss: {
    control: () => labelled('Error (1 − confidence level)', asText('miss', '1/20'), '--miss'),
    value: () => asFraction(byId('miss').value),
  },
  missing: {
    control: () => labelled('Rows with a missing field', selectOf('missing', MISSING, ''), '--missing'),
    value: () => byId('missing').value,
  },
};

// A whole number or a decimal as the fraction that the program takes. Any other text stays as it is.
function asFraction(text) {
  const [number, whole, decimals = ''] = text.trim().match(/^(\d*)(?:\.(\d+))?$/) ?? [''];
  if (number === '') return text.trim();
  const over = BigInt(whole + decimals), under = 10n ** BigInt(decimals.length), divisor = greatestDivisor(over, under);
  return `${over / divisor}/${under / divisor}`;
}

// Which of two groups is the second sample, to which the statistic refers. Reports of strata do not name the groups, so for
// them the order is always given. A label with a comma cannot be listed.
function testedChoices() {
  const [first, second, ...more] = labelsNow();
  const canBeListed = second !== undefined && more.length === 0 && !`${first}${second}`.includes(',');
  if (!canBeListed) return [[['', 'the second label']], ''];
  const asItStands = testNow().layout === 'stratified' ? `${first},${second}` : '';
  return [[[asItStands, second], [`${second},${first}`, first]], asItStands];
}

function peakChoices(order) {
  return [['', 'choose one'], ...order.map((label, i) => [String(i + 1), `${i + 1}: ${label.trim()}`])];
}

// The peak is one of the groups, in the order that was given.
function showPeaks() {
  const peak = byId('peak');
  if (peak !== null) peak.replaceWith(selectOf('peak', peakChoices(byId('order').value.split(',')), peak.value));
}

// The names of the options that the test takes.
function optionsOf(test) {
  const tail = test.tails.length > 1 ? ['tail'] : [];
  const missing = LAYOUTS[test.layout].missing ? ['missing'] : [];
  return [...tail, ...test.options, ...missing];
}

// The controls of the test's options. Earlier choices are kept as long as the test and the labels are the same.
function showOptions() {
  const before = new Map([...byId('options').querySelectorAll('select, input')].map(it => [it.id, it.value]));
  const labels = JSON.stringify([testNow().name, labelsNow()]);
  const keeps = byId('options').dataset.labels === labels;
  byId('options').dataset.labels = labels;
  byId('options').replaceChildren();
  for (const option of optionsOf(testNow())) byId('options').append(OPTIONS[option].control());
  for (const control of byId('options').querySelectorAll('select, input')) {
    if (keeps) control.value = before.get(control.id) ?? control.value;
  }
  showPeaks();
}

// ---- the words

// What is asked now: the words for the program, and what the reading of its report needs.
function askedNow() {
  const test = testNow(), picked = pickedColumns(), names = headers();
  const words = [test.name, fileName()];
  if (picked.length !== names.length || picked.some((column, i) => column !== i)) {
    words.push(`--columns=${picked.map(column => column + 1).join(',')}`);
  }
  if (separatorWord() !== 'comma') words.push(`--separator=${separatorWord()}`);
  for (const option of optionsOf(test)) {
    const value = OPTIONS[option].value().trim();
    if (value !== '') words.push(`--${option === 'tested' ? 'order' : option}=${value}`);
  }
  return {
    test: test.name,
    words,
    bytes: bytesNow(),
    headers: picked.map(column => names[column]),
    labels: test.layout === 'stratified' ? groupsOfStrata() : undefined,
    odds: (test.options.includes('odds') && OPTIONS.odds.value()) || undefined,
  };
}

function groupsOfStrata() {
  const order = byId('tested').value;
  return order === '' ? ['the first label', 'the second label'] : order.split(',');
}

const fileName = () => chosen === null ? 'data.csv' : chosen.name.replace(/^-/, './-');
const bytesNow = () => chosen?.bytes ?? new TextEncoder().encode(byId('data').value);

// The words as a shell reads them.
function commandOf(words) {
  const isPlain = word => /^[\w@%+=:,./-]+$/.test(word);
  return ['exact', ...words].map(word => isPlain(word) ? word : `'${word.replaceAll("'", "'\\''")}'`).join(' ');
}
