'use strict';
// What a refusal means and what helps, by the end of the program's line, for users of this page. docs/REFUSALS.md has the
// same for the command line.

const HELPS = {
  'command line': 'The words are not a valid command. The umbrella test needs its peak: choose one.',
  'option with test': 'This test does not take this option.',
  'value of --tail': 'This test does not have this tail.',
  'value of --order': 'The order must be 2 to 8 different labels, separated by commas. A label cannot contain a comma.',
  'value of --peak': 'The peak must be the number of a group, from 1 to 8.',
  'value of --row-scores': 'The row scores must be 2 to 8 whole numbers from −10^9 to 10^9, separated by commas.',
  'value of --column-scores': 'The column scores must be 2 to 64 whole numbers from −10^9 to 10^9, separated by commas.',
  'value of --columns': 'Choose each column once, and as many columns as the test reads.',
  'value of --miss': 'The error must be a fraction P/Q of whole numbers from 1 to 1000, with P less than Q, or a decimal. '
    + '1/20 gives 95% confidence.',
  'value of --odds': 'The odds ratio must be a fraction P/Q of whole numbers from 1 to 1000, or a decimal: 3/2 or 1.5.',
  '--columns does not fit the data': 'A chosen column does not exist in the table. Check the separator.',
  '--order does not fit the data': 'The labels of the order differ from those of the table. List all labels, spelled '
    + 'exactly as in the table.',
  '--peak does not fit the data': 'The number of the peak is larger than the number of groups.',
  '--row-scores does not fit the data': 'Give one score for each row of the table of counts.',
  '--column-scores does not fit the data': 'Give one score for each chosen column.',
  '--tail does not fit the data': 'A table larger than 2×2 has no one-sided tails. Choose all tails, and no odds ratio.',
  'no header': 'The table is empty. The first row must name the columns.',
  'field count': 'This row does not have the same number of fields as the header. Look for a separator inside text that is '
    + 'not quoted, a decimal comma, an unclosed quote, or notes below the data. If this row is the header, check the '
    + 'separator.',
  'too many columns': 'The test reads fewer columns. Choose the columns to use.',
  'not a number': 'Write numbers with a decimal point, without a decimal comma, thousands separators or units.',
  'out of range': 'The value has more than 18 decimal places, or its magnitude is 10^18 or more. Round or rescale the '
    + 'column.',
  missing: 'The field is empty or NA. Fill it in. Leave such rows out only if they are missing for reasons unrelated to '
    + 'their values.',
  'not a count': 'A count must be a whole number up to 1,000,000, written in digits only. Do not choose columns that hold '
    + 'names.',
  'not 0 or 1': 'Cochran’s test reads 0 and 1. Code yes and no this way.',
  'a group too many': 'There are more labels than the test takes. Check for two spellings of one label. If each sample has '
    + 'its own column, stack the samples: one label and one value per row.',
  'ends too early': 'There are too few groups, pairs, blocks, strata or rows. Is the first row a header?',
  'too many rows': 'The limit is 10,000 rows, 120 for kendall, 8 for a table of counts, and 2 for mcnemar.',
  'file longer than bytes': 'The limit is 1,048,576 bytes. Remove the columns that the test does not read.',
  total: 'There are more rearrangements than 127 bits can count. This does not mean that an approximation is good enough. A '
    + 'table of counts may fit if its rows and columns are exchanged. Otherwise, simulate the same distribution, for '
    + 'example in R with approximate() of coin, or with simulate.p.value = TRUE of fisher.test if the table is larger than '
    + '2×2.',
  statistic: 'The statistic needs more than 127 bits. For raw, rawsigned and kw with raw scores, round the values. With '
    + 'other scores, simulate the same distribution, for example in R with approximate() of coin.',
  'no memory': 'Memory ran out. The program on the command line can use more. Fewer different values need less memory.',
};
// Causes that only the words of a command line can have.
const NOT_ASKED_HERE = [
  'value of TEST', 'value of --scores', 'value of --separator', 'value of --missing', 'value of --number',
  'value of --stage', 'value of --parts', 'value of --part', 'piece line', 'foreign piece', 'doubled piece', 'missing part',
  'unequal piece', 'read fault', 'write fault',
];

// The help for a line of refusal.
function helpOf(line) {
  const cause = line.trim().split(': ').pop();
  const named = Object.keys(HELPS).find(it => it === cause || it === cause.replace(/ \d+/g, ''));
  if (cause.startsWith('--tail with ')) return HELPS['value of --tail'];
  if (/^--[^ ]+ with /.test(cause)) return HELPS['option with test'];
  return HELPS[named] ?? '';
}

// The row and the field that a line names, counted from 1, or nothing.
function placeOf(line) {
  const found = line.match(/^refused: row (\d+)(?: field (\d+))?: /);
  return found && { row: Number(found[1]), field: found[2] === undefined ? undefined : Number(found[2]) };
}
