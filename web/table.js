'use strict';
// Reads a pasted table: its separator, its rows as the program counts them, whether its first row may be data, and which
// columns a test is likely to need. This serves the controls and the marking of a row only; the program reads the bytes
// itself.

const SEPARATORS = { comma: ',', semicolon: ';', tab: '\t' };

// The word for the separator that the first row suggests.
function separatorOf(text) {
  const header = text.split(/[\r\n]/).find(line => line !== '') ?? '';
  const bare = header.replace(/"[^"]*"/g, '');
  const times = word => bare.split(SEPARATORS[word]).length - 1;
  if (times('tab') > 0) return 'tab';
  return times('semicolon') > 0 && times('semicolon') >= times('comma') ? 'semicolon' : 'comma';
}

// The text of the field that begins at a position, and where it ends. A quoted field may contain separators, line breaks
// and doubled quotes.
function fieldAt(text, from, separator) {
  let to = from, cell = '';
  if (text[to] === '"') {
    for (to += 1; to < text.length && (text[to] !== '"' || text[to + 1] === '"'); to += 1) {
      if (text[to] === '"') to += 1;
      cell += text[to];
    }
    to += 1;
  }
  const rest = to;
  while (to < text.length && text[to] !== separator && text[to] !== '\n' && text[to] !== '\r') to += 1;
  return { cell: cell + text.slice(rest, to), to };
}

// The rows, each with its cells and its position in the text. Empty lines are not rows.
function rowsOf(text, separator) {
  const rows = [];
  let at = text.startsWith('\ufeff') ? 1 : 0;
  while (at < text.length) {
    if (text[at] === '\n' || text[at] === '\r') {
      at += 1;
      continue;
    }
    const row = { cells: [], from: at, to: at };
    for (let more = true; more; at = row.to + 1) {
      const { cell, to } = fieldAt(text, at, separator);
      row.cells.push(cell);
      row.to = to;
      more = to < text.length && text[to] === separator;
    }
    rows.push(row);
  }
  return rows;
}

const NUMBER = /^[ \t]*[+-]?(\d+\.?\d*|\.\d+)([eE][+-]?\d+)?[ \t]*$/;
const isMissing = cell => /^[ \t]*(NA)?[ \t]*$/.test(cell);

// What a column looks like: numbers, labels, or row numbers.
function columnOf(table, place) {
  const cells = table.slice(1).map(row => row.cells[place] ?? '').filter(cell => !isMissing(cell));
  const isNumbers = cells.length > 0 && cells.every(cell => NUMBER.test(cell));
  const countsRows = cells.length > 2 && cells.every((cell, i) => cell.trim() === String(i + 1));
  return { place, isNumbers, countsRows, different: new Set(cells.map(cell => cell.trim())).size };
}

// Whether the first row may be data: a number stands above a column of numbers; or, if no column holds numbers, each of its
// fields occurs again below it.
function mayBeData(table) {
  const columns = (table[0]?.cells ?? []).map((cell, place) => ({ cell, ...columnOf(table, place) }));
  const numeric = columns.filter(it => it.isNumbers);
  if (numeric.length > 0) return numeric.some(it => NUMBER.test(it.cell));
  return columns.length > 0 && columns.every(({ cell, place }) => table.slice(1).some(row => row.cells[place] === cell));
}

// A header for a table without one, as a line of its own.
function headerFor(table, separator) {
  return `${table[0].cells.map((_, place) => `column ${place + 1}`).join(separator)}\n`;
}

// The labels of a column in order of first appearance, at most nine.
function labelsOf(table, place) {
  const labels = new Set();
  for (const { cells } of table.slice(1)) {
    const label = (cells[place] ?? '').replace(/^[ \t]+|[ \t]+$/g, '');
    if (label !== '' && labels.size < 9) labels.add(label);
  }
  return [...labels];
}

// The columns that a layout is likely to need: all, in their order, if their number fits; otherwise chosen by what they look
// like. Places are counted from 0.
function likelyColumns(layout, table) {
  const all = (table[0]?.cells ?? []).map((_, place) => columnOf(table, place));
  const places = columns => columns.map(it => it.place);
  if (layout.fields === undefined) {
    const numbers = all.filter(it => it.isNumbers && !it.countsRows);
    return places((numbers.length < layout.least ? all : numbers).slice(0, layout.most));
  }
  const wanted = layout.fields.length;
  const needed = wanted - (layout.optional ?? 0);
  if (all.length >= needed && all.length <= wanted) return places(all);
  const wantsLabel = name => /Label|Stratum|Name/.test(name);
  const free = new Set(all);
  const costOfLabels = it => 4 * it.countsRows + 2 * it.isNumbers + (it.different < 2 || it.different > 8)
    + it.different / 10000;
  const costOfValues = it => 2 * !it.isNumbers + it.countsRows;
  return layout.fields.map(name => {
    const cost = wantsLabel(name) ? costOfLabels : costOfValues;
    const best = [...free].sort((a, b) => cost(a) - cost(b) || a.place - b.place)[0];
    free.delete(best);
    return best?.place ?? 0;
  });
}
