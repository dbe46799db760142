// Checks what the page says against the program and its documents: page_words.mjs PROGRAM PAGE. Each check prints a line,
// with 0 if it passed and 1 if not. The tests and options are those of completions/words, and the refusals those of
// docs/REFUSALS.md. The search finds the tests by the names in page_names.tsv. For data with a known direction, the tail
// with the smaller p-value is said to be evidence of it. A first row that may be data is noticed, and the marked field is
// the one that the program refuses.
import { spawnSync } from 'node:child_process';
import fs from 'node:fs';
import os from 'node:os';
import path from 'node:path';
import vm from 'node:vm';

const [program, page] = process.argv.slice(2);
const top = path.join(import.meta.dirname, '..');
const textOf = (...names) => fs.readFileSync(path.join(top, ...names), 'utf8');
const tell = (right, what) => console.log(right ? 0 : 1, `words: ${what}`);
const scripts = ['tests.js', 'search.js', 'table.js', 'report.js', 'helps.js'].map(name => textOf('web', name)).join('\n');
const {
  TESTS, LAYOUTS, HELPS, NOT_ASKED_HERE, SEPARATORS, separatorOf, rowsOf, mayBeData, headerFor, placeOf, readReport,
  readingOf, testsFound, optionFound,
} = vm.runInThisContext(`${scripts}; ({
  TESTS, LAYOUTS, HELPS, NOT_ASKED_HERE, SEPARATORS, separatorOf, rowsOf, mayBeData, headerFor, placeOf, readReport,
  readingOf, testsFound, optionFound,
})`);

// ---- tests and options

const lines = textOf('completions', 'words').split('\n').map(line => line.split(' '));
const tests = lines.filter(([kind]) => kind === 'test').flatMap(([, ...names]) => names);
tell([...tests, 'shift'].sort().join() === Object.keys(TESTS).sort().join(), 'the tests');

// The options of a test, each of which has a control.
function optionsOf(test) {
  const options = lines.filter(([kind, , , ...names]) => kind === 'option' && names.includes(test));
  return options.map(([, name]) => name.slice(2)).sort().join();
}

for (const test of Object.values(TESTS)) {
  const offered = test.options.map(option => option === 'tested' ? 'order' : option);
  const missing = LAYOUTS[test.layout].missing ? ['missing'] : [];
  tell([...offered, ...missing].sort().join() === optionsOf(test.name), `the options of ${test.name}`);
}

// ---- names

// The table of names in other software, as the page holds it.
const elsewhere = JSON.parse(fs.readFileSync(page, 'utf8').match(/id="names">([^<]*)</)[1]);
const named = textOf('tests', 'page_names.tsv').split('\n').slice(0, -1).map(line => line.split('\t'));

for (const [name, wanted] of named) {
  const found = testsFound(name, elsewhere).join();
  tell(found === wanted, `the name ${name} finds ${found}`);
}
const found = new Set(named.flatMap(([, wanted]) => wanted.split(',')));
tell(Object.keys(TESTS).every(test => found.has(test)), 'every test has a name in the list');
for (const name of ['t.test', 'Spearman', 'Kolmogorov-Smirnov', 'logrank', 'chisq.test', 'van der Waerden']) {
  tell(testsFound(name, elsewhere).length === 0, `no test is called ${name}`);
}
for (const name of ['', ' ']) tell(testsFound(name, elsewhere).length === Object.keys(TESTS).length, 'all tests');
for (const option of ['--alternative', 'alternative = "greater"', 'Alternative', 'alternative=']) {
  tell(optionFound(option)?.startsWith('“Tail” '), `the option ${option}`);
}
tell(named.every(([name]) => optionFound(name) === undefined), 'no test is an option');

// ---- refusals

const links = new Set([...textOf('docs', 'REFUSALS.md').matchAll(/<a id="([^"]*)">/g)].map(found => found[1]));
const linkOf = cause => cause.toLowerCase().replace(/[^a-z]+/g, '-').replace(/^-|-$/g, '');
const known = new Set([...Object.keys(HELPS), ...NOT_ASKED_HERE].map(linkOf));
for (const link of links) tell(known.has(link), `the refusal ${link}`);
tell([...known].every(link => links.has(link)), 'no other refusals');

// ---- readings

const UP = 'g,v\nx,1\nx,2\nx,3\ny,4\ny,5\ny,6\n';
const OUT = 'g,v\nx,4\nx,5\nx,6\nx,7\ny,1\ny,2\ny,3\ny,8\ny,9\ny,10\n';
const PAIRS = 'before,after\n1,3\n2,5\n3,7\n4,9\n';
const ROUND = 'a,b,c\n1,2,3\n2,4,6\n3,5,7\n';
const STRATA = 's,a,b,c,d\nu,5,1,1,5\nv,4,1,1,4\n';
const ONE_STRATUM = UP.replace(/^/gm, 's,').slice(0, -2);
const DIRECTIONS = [
  ['signedrank', PAIRS, 'greater', 'larger values of “after” than of “before”'],
  ['sign', PAIRS, 'greater', 'larger values of “after” than of “before”'],
  ['rawsigned', PAIRS, 'greater', 'larger values of “after” than of “before”'],
  ['signedrank', 'd\n-1\n-2\n-3\n', 'less', 'differences below 0'],
  ['mcnemar', 'yes,no\n9,16\n37,82\n', 'less', 'fewer changes of kind b than of kind c'],
  ['ranksum', UP, 'greater', 'larger values in “y” than in “x”'],
  ['raw', UP, 'greater', 'larger values in “y” than in “x”'],
  ['median', UP, 'greater', 'more values of “y” above the common median'],
  ['savage', UP, 'greater', 'longer times in “y” than in “x”'],
  ['ansari', OUT, 'less', 'a wider spread of “y” than of “x”'],
  ['mood', OUT, 'greater', 'a wider spread of “y” than of “x”'],
  ['kw', UP, 'greater', 'differences between the samples'],
  ['jt', `${UP}z,7\nz,8\n`, 'greater', 'an increase in the order “x”, “y”, “z”'],
  ['umbrella', `${UP}z,1\nz,2\n`, 'greater', 'an increase up to “y” and a decrease after it', '--peak=2'],
  ['friedman', ROUND, 'greater', 'differences between the treatments'],
  ['page', ROUND, 'greater', 'an increase in the order “a”, “b”, “c”'],
  ['cochran', 'a,b\n0,1\n0,1\n0,1\n', 'greater', 'differences between the treatments'],
  ['fisher', 'p,q\n5,1\n1,5\n', 'greater', 'more subjects of the first row in “p” than expected under independence'],
  ['fisher', 'p,q\n5,1\n1,5\n', 'greater', 'an odds ratio above 2/1', '--odds=2/1'],
  ['fisher', 'p,q,r\n5,1,1\n1,5,2\n', 'two', 'an association of the two classifications'],
  ['linear', 'p,q,r\n4,2,0\n0,2,4\n', 'greater', 'a positive association of row scores and column scores'],
  ['strata', STRATA, 'greater', 'a common odds ratio above 1'],
  ['strata', STRATA, 'greater', 'a common odds ratio above 2/1', '--odds=2/1'],
  ['zelen', 's,a,b,c,d\nu,5,1,1,5\nv,1,4,4,1\n', 'two', 'odds ratios that differ between the strata'],
  ['stratranksum', ONE_STRATUM, 'greater', 'larger values in “y” than in “x”', '--order=x,y'],
  ['kendall', PAIRS, 'greater', 'a positive association of “before” and “after”'],
  ['runs', 'l\nM\nF\nM\nF\nM\nF\n', 'greater', 'alternation of the labels'],
  ['runs', 'l\nM\nM\nM\nF\nF\nF\n', 'less', 'clustering of equal labels'],
];

const folder = fs.mkdtempSync(path.join(os.tmpdir(), 'exact-words-'));

// What the program writes for a test of a table.
function runOf(test, table, options) {
  const file = path.join(folder, 'f.csv');
  fs.writeFileSync(file, table);
  return spawnSync(program, [test, file, ...options], { encoding: 'utf8' });
}

for (const [test, table, tail, meaning, option] of DIRECTIONS) {
  const { stdout } = runOf(test, table, option ? [option] : []);
  const labels = test === 'stratranksum' ? ['x', 'y'] : undefined;
  const odds = option?.startsWith('--odds=') ? option.slice(7) : undefined;
  const { tails } = readingOf(readReport(stdout), { test, headers: rowsOf(table, ',')[0].cells, labels, odds });
  const least = tails.reduce((a, b) => b.name !== 'two' && b.over < a.over ? b : a);
  tell(least.name === tail && least.said.includes(`is evidence of ${meaning}`), `${test}, ${tail}: ${least.said}`);
}
tell(new Set(DIRECTIONS.map(([test]) => test)).size === Object.keys(TESTS).length - 1, 'every test has a direction');

// ---- the median score

// The value of the statistic by its definition: 1 for a place in the upper half and 0 for any other, shared by tied values.
function medianScore(first, second) {
  const sorted = [...first, ...second].sort((a, b) => a - b);
  const high = sorted.map((_, i) => Number(2 * (i + 1) > sorted.length + 1));
  const scoreOf = value => {
    const scores = high.filter((_, i) => sorted[i] === value);
    return scores.reduce((sum, score) => sum + score, 0) / scores.length;
  };
  return second.reduce((sum, value) => sum + scoreOf(value), 0);
}

const MEDIANS = [[[1, 2, 3], [4, 5, 6]], [[1, 2, 5, 5], [5, 5, 5, 8, 9]], [[1, 2, 5], [5, 7]], [[3, 3], [3, 3]]];
for (const [first, second] of MEDIANS) {
  const rows = [...first.map(value => `x,${value}\n`), ...second.map(value => `y,${value}\n`)];
  const { stdout } = runOf('median', `g,v\n${rows.join('')}`, []);
  const { sentences } = readingOf(readReport(stdout), { test: 'median', headers: [] });
  const statistic = sentences.find(sentence => sentence.startsWith('The statistic is '));
  const value = Number(statistic.match(/^The statistic is the sum of the median scores of “y”: ([\d.]+)\.$/)?.[1]);
  tell(value === medianScore(first, second), `the median score of ${second}: ${statistic}`);
  const scoring = sentences.find(sentence => sentence.startsWith('A value above the common median scores 1,'));
  tell(scoring?.includes('Values equal to the median share the mean score of their places'), 'and how it is formed');
}

// ---- a first row that may be data

const NO_HEADERS = ['c,300\nc,19\nt,17\n', '5,1\n1,5\n', '1.5;2\n3;4\n', 'u,5,1,1,5\nv,4,1,1,4\n', 'M\nF\nM\nM\nF\n',
  'c,300\nc,NA\nt,17\n'];
const tableOf = text => rowsOf(text, SEPARATORS[separatorOf(text)]);
for (const text of NO_HEADERS) {
  tell(mayBeData(tableOf(text)), `${JSON.stringify(text)} may have no header`);
  const whole = headerFor(tableOf(text), SEPARATORS[separatorOf(text)]) + text;
  tell(!mayBeData(tableOf(whole)), 'and has one when it is added');
  tell(tableOf(whole).length === tableOf(text).length + 1, 'which is one more row');
  tell(separatorOf(whole) === separatorOf(text), 'with the same separator');
}
for (const name of fs.readdirSync(path.join(top, 'examples')).filter(name => name.endsWith('.csv'))) {
  tell(!mayBeData(tableOf(textOf('examples', name))), `${name} has a header`);
}
for (const text of ['', 'c,300\n', 'g,300\nc,x\n', 'l\nM\nF\n']) {
  tell(!mayBeData(tableOf(text)), `${JSON.stringify(text)} is not asked about`);
}
const rats = runOf('ranksum', headerFor(tableOf(NO_HEADERS[0]), ',') + NO_HEADERS[0], []).stdout;
tell(rats.includes('group 2 c\ngroup 1 t\n'), 'with the header no row is lost');

// ---- the row and the field that are marked

const MARKED = [
  'g,v\nx,1\n\n\ny,bad\n',
  '\n\ng,v\n"a ""b""",1\ny,bad\n',
  'g,v\r\n"x\r\nz",1\r\ny,"bad"\r\n',
  'g;v\n"x;1";2\ny;bad\n',
  'g\tv\nx\t1\ny\tbad',
  '\ufeffg,v\nx,1\ny,bad\n',
  'g,v\rx,1\ry,bad\r',
  'g,v\n"x"y,1\nx"y",2\ny,bad\n',
];
for (const table of MARKED) {
  const separator = separatorOf(table);
  const place = placeOf(runOf('kw', table, [`--separator=${separator}`]).stderr);
  const row = rowsOf(table, SEPARATORS[separator])[place.row - 1];
  tell(row.cells[place.field - 1] === 'bad', `the marked field of ${JSON.stringify(table)}`);
}
fs.rmSync(folder, { recursive: true });
