'use strict';
// What the page knows about each test: its question, the layout of its file, its options, and what a small p-value of each
// tail is evidence of. docs/TESTS.md has the definitions.

// A layout: what each row of the file holds; the fields that the test reads, each with the label of its control, or how
// many columns of one kind there may be; and whether --missing applies.
const LAYOUTS = {
  pairs: {
    row: 'both values of a pair, or one difference', missing: true,
    fields: ['First value, or difference', 'Second value'], optional: 1,
  },
  groups: { row: 'a label and a value', missing: true, fields: ['Label', 'Value'] },
  blocks: { row: 'a block, with one value per treatment', missing: true, least: 2, most: 8, of: 'Treatment' },
  changes: { row: 'two counts; there are two rows', least: 2, most: 2, of: 'Counts' },
  table: { row: 'one row of a table of counts', least: 2, most: 64, of: 'Counts' },
  strata: {
    row: 'the name of a stratum and the four counts of its 2×2 table',
    fields: ['Name of the stratum', 'Count a', 'Count b', 'Count c', 'Count d'],
  },
  stratified: { row: 'a stratum, a label and a value', missing: true, fields: ['Stratum', 'Label', 'Value'] },
  bivariate: { row: 'two measurements of one subject', missing: true, fields: ['First value', 'Second value'] },
  sequence: { row: 'one label, in the order of observation', missing: true, fields: ['Label'] },
};

const ALL_TAILS = ['less', 'greater', 'two'];
const ONE_SAMPLE = 'One sample: pairs or differences';
const BIVARIATE = 'Two measurements per subject, and sequences';
const ASSIGNMENTS = 'ways to assign the labels to the values';
const TABLES = 'ways to assign the row labels to the subjects';
const WITHIN_BLOCKS = 'ways to arrange the values within the blocks';
const isOneColumn = it => it.second === undefined;

// For each test: its heading, layout, tails and options; its question and its title; what its rearrangements are; what its
// statistic is, with a sentence on how it scores values where its title does not say so; and what a small p-value of each
// tail is evidence of, where `either` stands for both directions. `it` has `first` and `second`, the labels of two groups or
// the headers of two columns, and `order`, all of them. A test may be `like` another.
const TESTS = {
  signedrank: {
    group: ONE_SAMPLE, layout: 'pairs', tails: ALL_TAILS,
    question: 'Do paired values increase (or decrease) from the first to the second?',
    title: 'Wilcoxon signed-rank test', rearrangements: 'ways to assign signs to the differences',
    statistic: () => 'the sum of the ranks of the positive differences',
    less: it => isOneColumn(it) ? 'differences below 0' : `smaller values of ${it.second} than of ${it.first}`,
    greater: it => isOneColumn(it) ? 'differences above 0' : `larger values of ${it.second} than of ${it.first}`,
    two: () => 'either',
  },
  sign: {
    like: 'signedrank', question: 'Do paired values increase (or decrease), judged by their signs alone?',
    title: 'Sign test', statistic: () => 'the number of positive differences',
  },
  rawsigned: {
    like: 'signedrank', question: 'Do paired values increase (or decrease), judged by the differences themselves?',
    title: 'Fisher’s randomization test for paired differences', statistic: () => 'the sum of the positive differences',
  },
  mcnemar: {
    group: ONE_SAMPLE, layout: 'changes', tails: ALL_TAILS,
    question: 'Is one kind of change more frequent than the other (yes to no, or no to yes)?', title: 'McNemar’s test',
    rearrangements: 'ways to divide the changes between the two kinds',
    statistic: () => 'b, the second count of the first row (c is the first count of the second row)',
    less: () => 'fewer changes of kind b than of kind c', greater: () => 'more changes of kind b than of kind c',
    two: () => 'either',
  },
  ranksum: {
    group: 'Two samples', layout: 'groups', tails: ALL_TAILS, options: ['tested'],
    question: 'Does one sample tend to have larger values than the other?',
    title: 'Wilcoxon rank-sum test (Mann-Whitney U)', rearrangements: ASSIGNMENTS,
    statistic: it => `the sum of the ranks of ${it.second}`,
    less: it => `smaller values in ${it.second} than in ${it.first}`,
    greater: it => `larger values in ${it.second} than in ${it.first}`,
    two: () => 'either',
  },
  raw: {
    like: 'ranksum', question: 'Does one sample have larger values, judged by the values themselves?',
    title: 'Two-sample permutation test (Fisher-Pitman)', statistic: it => `the sum of the values of ${it.second}`,
  },
  median: {
    like: 'ranksum', question: 'Does one sample have more values above the common median?',
    title: 'Median test (Brown-Mood)',
    statistic: it => `the sum of the median scores of ${it.second}`,
    scoring: 'A value above the common median scores 1, and a value below it 0. Values equal to the median share the mean '
      + 'score of their places, which is 1 for a place in the upper half and 0 for any other: 1/2, for example.',
    less: it => `fewer values of ${it.second} above the common median`,
    greater: it => `more values of ${it.second} above the common median`,
  },
  ansari: {
    like: 'ranksum', question: 'Is one sample more spread out than the other, around a common median?',
    title: 'Ansari-Bradley test',
    statistic: it => `the sum of the scores of ${it.second}, which are small at both ends of the ordered values`,
    less: it => `a wider spread of ${it.second} than of ${it.first}`,
    greater: it => `a narrower spread of ${it.second} than of ${it.first}`,
  },
  mood: {
    like: 'ranksum', question: 'Is one sample more spread out than the other, judged by squared rank distances?',
    title: 'Mood’s test of dispersion',
    statistic: it => `the sum of the scores of ${it.second}, which are large at both ends of the ordered values`,
    less: it => `a narrower spread of ${it.second} than of ${it.first}`,
    greater: it => `a wider spread of ${it.second} than of ${it.first}`,
  },
  savage: {
    like: 'ranksum', question: 'Are the waiting times in one sample longer by a constant factor?',
    title: 'Savage’s test (exponential scores)',
    statistic: it => `the sum of the exponential scores of ${it.second}`,
    less: it => `shorter times in ${it.second} than in ${it.first}`,
    greater: it => `longer times in ${it.second} than in ${it.first}`,
  },
  shift: {
    group: 'Two samples', layout: 'groups', tails: [], options: ['tested', 'miss'],
    question: 'By how much are the values of one sample larger? (An estimate, not a test.)',
    title: 'Hodges-Lehmann estimate with an exact confidence interval',
  },
  kw: {
    group: 'Several samples', layout: 'groups', tails: ['greater'], options: ['scores'],
    question: 'Do two to eight samples differ?', title: 'Kruskal-Wallis test', rearrangements: ASSIGNMENTS,
    statistic: () => 'the sum over the groups of R²/n, where R is a group’s sum of scores and n its size',
    greater: () => 'differences between the samples',
  },
  jt: {
    group: 'Several samples', layout: 'groups', tails: ALL_TAILS, options: ['order'],
    question: 'Do the samples increase in a given order?', title: 'Jonckheere-Terpstra test',
    rearrangements: ASSIGNMENTS,
    statistic: () => 'the number of pairs of values that increase in the order of the groups, with ties counted as 1/2',
    less: it => `a decrease in the order ${it.order}`, greater: it => `an increase in the order ${it.order}`,
    two: () => 'either',
  },
  umbrella: {
    like: 'jt', options: ['order', 'peak'], question: 'Do the samples increase up to a peak and then decrease?',
    title: 'Mack-Wolfe test for umbrella alternatives',
    statistic: () => 'the number of pairs of values that increase up to the peak or decrease after it, with ties counted as '
      + '1/2',
    less: it => `a decrease up to ${it.peak} and an increase after it, in the order ${it.order}`,
    greater: it => `an increase up to ${it.peak} and a decrease after it, in the order ${it.order}`,
  },
  friedman: {
    group: 'Blocks', layout: 'blocks', tails: ['greater'],
    question: 'Do treatments differ, when every block received each?', title: 'Friedman test',
    rearrangements: WITHIN_BLOCKS, statistic: () => 'the sum of the squared rank sums of the treatments',
    greater: () => 'differences between the treatments',
  },
  page: {
    group: 'Blocks', layout: 'blocks', tails: ALL_TAILS,
    question: 'Do the treatments increase in the order of the columns?', title: 'Page’s trend test',
    rearrangements: WITHIN_BLOCKS,
    statistic: () => 'the sum of the rank sums of the treatments, each multiplied by the number of its column',
    less: it => `a decrease in the order ${it.order}`, greater: it => `an increase in the order ${it.order}`,
    two: () => 'either',
  },
  cochran: {
    like: 'friedman', question: 'Do treatments differ, when every block received each and the outcomes are 0 or 1?',
    title: 'Cochran’s Q test', statistic: () => 'the sum of the squared totals of the treatments',
  },
  fisher: {
    group: 'Tables of counts', layout: 'table', tails: ALL_TAILS, options: ['odds'],
    question: 'Are two classifications independent?',
    title: 'Fisher’s exact test (Fisher-Freeman-Halton for tables larger than 2×2)',
    rearrangements: TABLES, statistic: it => it.isTwoByTwo ? 'the first cell' : 'the probability of the table',
    less: it => it.odds ? `an odds ratio below ${it.odds}`
      : `fewer subjects of the first row in ${it.first} than expected under independence`,
    greater: it => it.odds ? `an odds ratio above ${it.odds}`
      : `more subjects of the first row in ${it.first} than expected under independence`,
    two: () => 'an association of the two classifications',
  },
  linear: {
    group: 'Tables of counts', layout: 'table', tails: ALL_TAILS, options: ['row-scores', 'column-scores'],
    question: 'Do two ordered classifications increase together?',
    title: 'Linear-by-linear association (Cochran-Armitage trend test for two rows)', rearrangements: TABLES,
    statistic: () => 'the sum over the cells of the count times its row score and its column score',
    less: () => 'a negative association of row scores and column scores',
    greater: () => 'a positive association of row scores and column scores', two: () => 'either',
  },
  strata: {
    group: 'Strata', layout: 'strata', tails: ALL_TAILS, options: ['odds'],
    question: 'Are two factors independent within each of several 2×2 tables? (Run Zelen’s test first.)',
    title: 'Exact Mantel-Haenszel test of the common odds ratio', rearrangements: `${TABLES} within each stratum`,
    statistic: () => 'the sum of the first cells',
    less: it => `a common odds ratio below ${it.odds ?? 1}`,
    greater: it => `a common odds ratio above ${it.odds ?? 1}`,
    two: () => 'either',
  },
  zelen: {
    group: 'Strata', layout: 'strata', tails: ['two'],
    question: 'Is the odds ratio the same in several 2×2 tables?', title: 'Zelen’s test of equal odds ratios',
    rearrangements: `${TABLES} within each stratum that keep the sum of the first cells`,
    statistic: () => 'the probability of the tables', two: () => 'odds ratios that differ between the strata',
  },
  stratranksum: {
    group: 'Strata', layout: 'stratified', tails: ALL_TAILS, options: ['tested'],
    question: 'Does one sample tend to have larger values than the other, within strata?',
    title: 'Stratified Wilcoxon rank-sum test (unweighted)',
    rearrangements: 'ways to assign the labels to the values within each stratum',
    statistic: it => `the sum of the within-stratum ranks of ${it.second}`,
    less: it => `smaller values in ${it.second} than in ${it.first}`,
    greater: it => `larger values in ${it.second} than in ${it.first}`,
    two: () => 'either',
  },
  kendall: {
    group: BIVARIATE, layout: 'bivariate', tails: ALL_TAILS,
    question: 'Do two variables increase together?', title: 'Kendall’s rank correlation (tau)',
    rearrangements: 'ways to assign the second values to the subjects',
    statistic: () => 'the number of concordant pairs of subjects minus the number of discordant pairs',
    less: it => `a negative association of ${it.first} and ${it.second}`,
    greater: it => `a positive association of ${it.first} and ${it.second}`,
    two: () => 'either',
  },
  runs: {
    group: BIVARIATE, layout: 'sequence', tails: ALL_TAILS,
    question: 'Are two kinds of label in random order?', title: 'Runs test (Wald-Wolfowitz)',
    rearrangements: 'orders of the labels', statistic: () => 'the number of runs, that is, stretches of equal labels',
    less: () => 'clustering of equal labels', greater: () => 'alternation of the labels', two: () => 'either',
  },
};
for (const [name, test] of Object.entries(TESTS)) {
  TESTS[name] = { options: [], ...TESTS[test.like], ...test, name };
}
