'use strict';
// Finds tests by the names that people use: the question and the title of a test, its names in other software (the table in
// docs/WHICH.md), and the names below. Case, accents, hyphens, apostrophes and plurals make no difference.

// More names of each test: what people call it, and the names in software that the table leaves out.
const ALIASES = {
  signedrank: ['Wilcoxon', 'Wilcoxon matched pairs', 'paired Wilcoxon', 'one-sample Wilcoxon', 'signrank',
    'PROC UNIVARIATE'],
  sign: ['binomial test', 'SIGN.test', 'sign_test', 'signtest', 'PROC UNIVARIATE'],
  rawsigned: ['permutation test', 'randomization test', 'paired permutation test'],
  mcnemar: ['mcnemar.test', 'mcnemar.exact', 'mcc', 'matched pairs', 'CROSSTABS MCNEMAR', 'PROC FREQ AGREE'],
  ranksum: ['Wilcoxon', 'Mann-Whitney', 'Wilcoxon-Mann-Whitney', 'WMW', 'U test', 'Wilcoxon rank-sum test',
    'two-sample Wilcoxon', 'PROC NPAR1WAY WILCOXON'],
  raw: ['permutation test', 'randomization test', 'Pitman', 'PROC NPAR1WAY SCORES=DATA'],
  median: ['Mood’s median test', 'PROC NPAR1WAY MEDIAN'],
  ansari: ['dispersion', 'scale', 'PROC NPAR1WAY AB'],
  mood: ['dispersion', 'scale', 'PROC NPAR1WAY MOOD'],
  savage: ['PROC NPAR1WAY SAVAGE'],
  shift: ['Hodges-Lehmann', 'location shift', 'PROC NPAR1WAY HL'],
  kw: ['Kruskal-Wallis H', 'H test', 'one-way ANOVA on ranks', 'kwallis', 'PROC NPAR1WAY WILCOXON'],
  jt: ['trend across groups', 'ordered alternatives', 'jonckheere.test', 'PROC FREQ JT'],
  umbrella: ['Mack-Wolfe'],
  friedman: ['two-way ANOVA on ranks', 'repeated measures', 'Kendall’s W', 'concordance'],
  page: ['Page’s L', 'ordered alternatives', 'repeated measures'],
  cochran: ['cochrans_q', 'cochran.qtest', 'PROC FREQ AGREE'],
  fisher: ['Fisher’s exact test', 'Fisher-Irwin', 'Freeman-Halton', 'fisher.exact', 'hypergeometric test',
    'contingency table', 'r×c table', 'odds ratio of a 2×2 table', 'PROC FREQ FISHER'],
  linear: ['Cochran-Armitage', 'Mantel-Haenszel chi-square', 'prop.trend.test', 'CochranArmitageTest', 'ordinal',
    'contingency table', 'EXACT TREND', 'PROC FREQ MHCHI', 'PROC FREQ TREND'],
  strata: ['Mantel-Haenszel', 'Cochran-Mantel-Haenszel', 'CMH', 'StratifiedTable', 'PROC FREQ COMOR'],
  zelen: ['homogeneity of odds ratios', 'Breslow-Day', 'BreslowDayTest', 'PROC FREQ EQOR', 'PROC FREQ ZELEN'],
  stratranksum: ['stratified Mann-Whitney', 'van Elteren', 'blocked Wilcoxon'],
  kendall: ['correlation', 'tau-b', 'ktau', 'NONPAR CORR', 'PROC FREQ KENTB', 'PROC CORR KENDALL'],
  runs: ['randomness', 'runs.test', 'runtest', 'runstest_1samp'],
};

// Options by their names in other software, and where this page has them.
const OPTIONS_ELSEWHERE = [
  [['alternative', 'sides', 'tail', 'one-sided', 'two-sided'], '“Tail” in step 3. It refers to the second sample; '
    + '“alternative” in R and scipy refers to the first.'],
  [['or'], '“Odds ratio” in step 3, for fisher and strata.'],
  [['conf.level', 'conf.int', 'alpha'], '“Error” in step 3, for shift: 1/20 gives 95% confidence.'],
  [['na.action', 'na.rm', 'na.omit', 'nan_policy'], '“Rows with a missing field” in step 3.'],
  [['sep', 'delimiter'], '“Separator” in step 1.'],
];

const LITTLE_WORDS = ['test', 'the', 'proc', 'exact', 'method', 'for', 'of', 'and', 'a', 'an', 'in'];
const singular = word => word.replace(/([^s])s$/, '$1');
const joined = word => word.replace(/[^\p{L}\p{N}_]/gu, '');

// The words of a text, without case, accents and apostrophes, and with their hyphens and dots.
function wordsOf(text) {
  const plain = text.normalize('NFD').replace(/\p{M}/gu, '').toLowerCase().replace(/[’'`]/g, '');
  const tables = plain.replace(/(\d|\br) ?[x×] ?(\d|c\b)/g, '$1x$2');
  return tables.split(/[\s()=,;/"“”|]+/).filter(word => joined(word) !== '');
}

// The parts of a word between its hyphens and dots.
const partsOf = word => word.split(/[^\p{L}\p{N}_]+/u).filter(part => part !== '').map(singular);

// What two names have in common where they are one.
function keyOf(name, little = ['test', 'the', 'proc']) {
  return wordsOf(name).filter(word => !little.includes(singular(word))).flatMap(partsOf).join('');
}

// The names of a test: the command, its title, those above and those of the table, with the arguments of a call and without.
function namesOfTest(test, elsewhere) {
  const cells = Object.values(elsewhere[test.name] ?? {});
  const calls = cells.flatMap(cell => cell.split(';')).flatMap(call => [call, call.split('(')[0]]);
  const statements = cells.flatMap(cell => cell.match(/EXACT [^,;`]+/g) ?? []);
  return [test.name, test.title, ...ALIASES[test.name], ...cells, ...calls, ...statements];
}

// The words that a search compares: those of a text, whole and in parts.
function wordsToFind(text) {
  const words = wordsOf(text);
  return [...words.map(joined), ...words.flatMap(word => word.split(/[^\p{L}\p{N}]+/u)).map(singular)];
}

// The words that are searched for. Little words and single letters count only if there are no others.
function wordsAsked(text) {
  const words = wordsOf(text), large = words.filter(word => !LITTLE_WORDS.includes(singular(word)));
  const long = large.filter(word => joined(word).length > 1);
  return [long, large, words].find(some => some.length > 0) ?? [];
}

// Whether one of the words begins with this one, or some with each of its parts between hyphens.
function hasWord(words, asked) {
  const begins = start => words.some(word => word.startsWith(start));
  const parts = asked.split(/\p{Pd}/u);
  return begins(singular(joined(asked))) || parts.every(part => part.length > 1 && begins(singular(part)));
}

// The names of the tests that are meant: those that have this very name; else those that have each of its words; else those
// that are meant by what stands before the arguments of a call, or before the end of a statement.
function testsFound(text, elsewhere) {
  const all = Object.values(TESTS);
  for (const key of [keyOf(text), keyOf(text, LITTLE_WORDS)]) {
    const named = all.filter(test => namesOfTest(test, elsewhere).some(name => keyOf(name) === key));
    if (key !== '' && named.length > 0) return named.map(test => test.name);
  }
  const asked = wordsAsked(text);
  const found = all.filter(test => {
    const words = wordsToFind([test.group, test.question, ...namesOfTest(test, elsewhere)].join(' '));
    return asked.every(word => hasWord(words, word));
  });
  const head = text.split(/[(;]/)[0];
  if (found.length === 0 && head.trim() !== '' && head !== text) return testsFound(head, elsewhere);
  return found.map(test => test.name);
}

// Where the page has an option that is typed as on a command line or as an argument of a call, or nothing.
function optionFound(text) {
  const key = keyOf(text.replace(/^\s*-+/, '').split('=')[0]);
  const [, place] = OPTIONS_ELSEWHERE.find(([names]) => names.some(name => keyOf(name) === key)) ?? [];
  return place;
}
