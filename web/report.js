'use strict';
// Reads a report of the program and explains it in plain words. Numbers stay exact: they are BigInt.

const TAILS = ['less', 'greater', 'two'];
const QUOTIENTS = ['statistic', 'estimate', 'lower', 'upper', 'miss'];
const NUMBERS = ['total', 'dropped', 'differences'];

// The report by its lines, each a word followed by its values.
function readReport(text) {
  const report = { sizes: [], groups: [], tails: [], values: [] };
  for (const line of text.split('\n').slice(1, -1)) {
    const [word, ...rest] = line.split(' ');
    if (word === 'group') report.groups.push({ size: rest[0], label: rest.slice(1).join(' ') });
    else if (TAILS.includes(word)) report.tails.push({ name: word, ...readPart(rest) });
    else if (word === 'at') report.values.push(rest.map(BigInt));
    else if (QUOTIENTS.includes(word)) report[word] = rest[0] === 'none' ? null : readPart(rest);
    else if (NUMBERS.includes(word)) report[word] = BigInt(rest[0]);
    else report.sizes.push(line);
  }
  return report;
}

// A quotient `over/under`, with the decimals that follow it, if any.
function readPart([quotient, decimals]) {
  const [over, under] = quotient.split('/').map(BigInt);
  return { over, under, decimals };
}

const grouped = number => number.toLocaleString('en');
const magnitude = number => number < 0n ? -number : number;

function greatestDivisor(a, b) {
  while (b !== 0n) [a, b] = [b, a % b];
  return magnitude(a);
}

// A quotient in its most readable form: a whole number, an exact decimal, or a fraction with its approximate value.
function quotientText({ over, under }) {
  const divisor = greatestDivisor(over, under) || 1n;
  const [a, b] = [over / divisor, under / divisor];
  let rest = b, places = 0;
  for (const prime of [2n, 5n]) {
    let times = 0;
    for (; rest % prime === 0n; times += 1) rest /= prime;
    places = Math.max(places, times);
  }
  if (rest === 1n && places <= 18) return decimalText(a, b, places);
  return `${a}/${b}, about ${roundedText(a, b)}`;
}

// A quotient as a decimal that terminates after the given number of places.
function decimalText(over, under, places) {
  const digits = String(magnitude(over) * 10n ** BigInt(places) / under).padStart(places + 1, '0');
  const whole = grouped(BigInt(digits.slice(0, digits.length - places)));
  return (over < 0n ? '−' : '') + whole + (places > 0 ? `.${digits.slice(-places)}` : '');
}

// A quotient rounded to five significant digits.
function roundedText(over, under) {
  if (over === 0n) return '0';
  const size = magnitude(over), sign = over < 0n ? '−' : '';
  const scaled = (number, power) => power > 0 ? number * 10n ** BigInt(power) : number;
  let power = String(size).length - String(under).length;
  if (scaled(size, -power) < scaled(under, power)) power -= 1;
  const [top, bottom] = [scaled(size, 4 - power), scaled(under, power - 4)];
  let digits = String((2n * top + bottom) / (2n * bottom));
  if (digits.length > 5) [digits, power] = [digits.slice(0, 5), power + 1];
  if (power >= -4 && power <= 8) {
    return sign + Number(`${digits}e${power - 4}`).toLocaleString('en', { maximumSignificantDigits: 5 });
  }
  return `${sign}${digits[0]}.${digits.slice(1)} × 10${raised(power)}`;
}

const raised = power => String(power).replace(/./g, digit => digit === '-' ? '⁻' : '⁰¹²³⁴⁵⁶⁷⁸⁹'[digit]);

const quoted = label => `“${label}”`;

const isTwoByTwo = report => report.sizes.some(line => line.startsWith('table 2 by 2 '));

// How a test's sentences name the samples: by their labels, or by the headers of the columns.
function namesOf(report, asked) {
  const labels = report.groups.length > 0 ? report.groups.map(it => it.label) : asked.labels ?? asked.headers;
  const peak = report.sizes.find(line => line.startsWith('peak '));
  return {
    first: quoted(labels[0]),
    second: labels.length > 1 ? quoted(labels[1]) : undefined,
    order: labels.map(quoted).join(', '),
    peak: peak && quoted(labels[Number(peak.slice(5)) - 1]),
    odds: asked.odds,
    isTwoByTwo: isTwoByTwo(report),
  };
}

// Which data the answer refers to: the lines between the test and the statistic.
function sizesSaid(report, test, names) {
  const said = report.sizes.map(line => sizeSaid(line, test, names));
  const sizes = report.groups.map(it => `${quoted(it.label)} (n = ${it.size})`);
  if (report.groups.length === 2 && test.options.includes('tested')) {
    said.unshift(`The second sample, ${sizes[1]}, is compared with the first, ${sizes[0]}.`);
  } else if (report.groups.length > 0) {
    const what = test.layout === 'sequence' ? 'The labels are' : 'The groups, in this order, are';
    said.unshift(`${what} ${sizes.join(', ')}.`);
  }
  if (report.dropped !== undefined) said.push(`Rows left out because a field is missing: ${report.dropped}.`);
  return said;
}

const SCORES_SAID = {
  wilcoxon: 'Wilcoxon', ansari: 'Ansari-Bradley', mood: 'Mood', savage: 'Savage', median: 'median', raw: 'raw',
};

function sizeSaid(line, test, names) {
  const [word, ...rest] = line.split(' ');
  const differences = isOneColumn(names) ? names.first : `${names.second} minus ${names.first}`;
  const counted = (one, many) => `${rest[0]} ${rest[0] === '1' ? one : many}`;
  const said = {
    table: () => `The table has ${rest[0]} rows, ${rest[2]} columns and ${rest[4]} subjects.`,
    blocks: () => `The data have ${counted('block', 'blocks')} with ${rest[2]} treatments: ${names.order}.`,
    strata: () => `The data have ${counted('stratum', 'strata')} and ${rest[2]} subjects.`,
    scores: () => `The test uses ${SCORES_SAID[rest[0]]} scores.`,
    peak: () => `The peak is ${names.peak}.`,
    rows: () => test.layout === 'pairs'
      ? `The test uses the differences ${differences}. Of ${counted('difference', 'differences')}, ${rest[2]} `
        + `${rest[2] === '1' ? 'is' : 'are'} not 0 and ${rest[2] === '1' ? 'counts' : 'count'}.`
      : `The data have ${counted('subject', 'subjects')}; ${names.first} is the first value and ${names.second} the second.`,
  }[word];
  return said ? said() : line;
}

// What a tail counts, and what a small p-value of it is evidence of.
function tailSaid(tail, report, test, names) {
  const { one, many, what } = extremeSaid(tail.name, quotientText(report.statistic), test);
  const number = grouped(tail.over);
  const counted = names.odds ? `Those that ${many} ${what} weigh ${number}.`
    : `${number} of them ${tail.over === 1n ? one : many} ${what}.`;
  return `${counted} ${evidenceOf(tail.name, report, test, names)}`;
}

// What one of the rearrangements in a tail has or gives, and many of them have or give.
function extremeSaid(name, value, test) {
  const has = what => ({ one: 'has', many: 'have', what }), gives = what => ({ one: 'gives', many: 'give', what });
  if (name === 'less') return has(`a statistic of at most ${value}`);
  if (name === 'greater') return has(`a statistic of at least ${value}`);
  if (test.name === 'fisher') return gives('a table that is no more likely than the observed one');
  if (test.name === 'zelen') return gives('tables that are no more likely than the observed ones');
  return has('a statistic at least as far from its mean as the observed one, on either side');
}

function evidenceOf(name, report, test, names) {
  const what = test[name](names);
  if (what !== 'either') return `A small p-value is evidence of ${what}.`;
  return report.tails.length > 1 ? 'A small p-value is evidence of either alternative.'
    : `A small p-value is evidence of either ${test.less(names)}, or ${test.greater(names)}.`;
}

// p as the report prints it, and with five significant digits where the printed decimals are too few.
function partText({ over, under, decimals }) {
  const tiny = over > 0n && over * 1000n < under ? `, about ${roundedText(over, under)}` : '';
  return { fraction: `${over}/${under}`, decimals: `${decimals}${tiny}` };
}

// The whole reading: sentences on the data and the statistic, and a row for each tail.
function readingOf(report, asked) {
  const test = TESTS[asked.test], names = namesOf(report, asked);
  if (asked.test === 'shift') return shiftReading(report, names);
  const sentences = sizesSaid(report, test, names);
  sentences.push(`The statistic is ${test.statistic(names)}: ${quotientText(report.statistic)}.`);
  if (test.scoring) sentences.push(test.scoring);
  const total = grouped(report.total);
  const ways = test.rearrangements;
  sentences.push(names.odds ? `At an odds ratio of ${names.odds}, the ${ways} weigh ${total} in total.`
    : `Under the null hypothesis, the ${total} ${ways} are equally likely.`);
  const tails = report.tails.map(tail => ({ ...tail, ...partText(tail), said: tailSaid(tail, report, test, names) }));
  return { sentences, tails };
}

function shiftReading(report, names) {
  const sentences = sizesSaid(report, TESTS.shift, names);
  const { miss } = report;
  sentences.push(`The estimated shift, ${names.second} minus ${names.first}, is ${quotientText(report.estimate)}. It is the `
    + `median of ${grouped(report.differences)} differences.`);
  if (report.lower === null) {
    sentences.push('There is no confidence interval at this level: the samples are too small for it.');
    return { sentences, tails: [] };
  }
  sentences.push(`The exact confidence interval is from ${quotientText(report.lower)} to ${quotientText(report.upper)}.`);
  const level = quotientText({ over: miss.under - miss.over, under: miss.under });
  sentences.push(`Without ties, it misses the true shift with probability ${miss.over}/${miss.under} = ${miss.decimals}, so `
    + `the confidence level is ${level}. If values can be tied, the level is at least this.`);
  return { sentences, tails: [] };
}
