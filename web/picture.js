'use strict';
// Draws the distribution of a report, with a tail marked. Numbers come from the report; positions and heights are rounded.

const MOST_COLUMNS = 140;

// Whether a value with its weight is in the tail: by the statistic, by its distance from the mean, or by its probability.
function tailRule(report, tail, test) {
  const observed = report.statistic.over;
  if (tail === 'less') return ([value]) => value <= observed;
  if (tail === 'greater') return ([value]) => value >= observed;
  if (isLikelihood(report, test)) return ([value]) => value <= observed;
  if (test === 'fisher') {
    const own = report.values.find(([value]) => value === observed)?.[1] ?? 0n;
    return ([, weight]) => weight <= own;
  }
  const all = report.values.reduce((sum, [, weight]) => sum + weight, 0n);
  const moment = report.values.reduce((sum, [value, weight]) => sum + value * weight, 0n);
  const distance = value => magnitude(value * all - moment);
  return ([value]) => distance(value) >= distance(observed);
}

// A rule for the values of the tail, or null if their weights do not sum to the numerator of the report.
function markedBy(report, tail, test) {
  const asked = report.tails.find(it => it.name === tail);
  const isExtreme = tailRule(report, tail, test);
  const sum = report.values.reduce((all, line) => isExtreme(line) ? all + line[1] : all, 0n);
  return asked !== undefined && sum === asked.over ? isExtreme : null;
}

// Whether the statistic is the probability of a table. Its values then span many powers of ten.
function isLikelihood(report, test) {
  return test === 'zelen' || (test === 'fisher' && !isTwoByTwo(report));
}

// The position of a value, from 0 to 1.
function placesOf(report, test) {
  const measure = isLikelihood(report, test) ? value => Math.log(Number(value)) : Number;
  const low = measure(report.values[0][0]), high = measure(report.values[report.values.length - 1][0]);
  return value => high > low ? (measure(value) - low) / (high - low) : 0.5;
}

// Columns with their position, their weight and the weight of their marked part. Many values may share a column.
function columnsOf(values, placeOf, isExtreme) {
  const columns = new Map(), last = MOST_COLUMNS - 1;
  for (const line of values) {
    const [value, weight] = line, exact = placeOf(value);
    const place = values.length > MOST_COLUMNS ? Math.round(exact * last) / last : exact;
    const column = columns.get(place) ?? { place, weight: 0n, marked: 0n };
    column.weight += weight;
    if (isExtreme?.(line)) column.marked += weight;
    columns.set(place, column);
  }
  return [...columns.values()];
}

function drawn(name, properties, text) {
  const element = document.createElementNS('http://www.w3.org/2000/svg', name);
  for (const [property, value] of Object.entries(properties)) element.setAttribute(property, value);
  if (text !== undefined) element.textContent = text;
  return element;
}

// The bars, with the marked part of each at the bottom.
function barsOf(columns, width, height) {
  const most = columns.reduce((top, it) => it.weight > top ? it.weight : top, 1n);
  const tall = weight => Number(weight * 100000n / most) / 100000 * height;
  const wide = Math.min(24, Math.max(1.5, 0.8 * (width - 60) / Math.max(columns.length, 2)));
  const bars = [];
  for (const { place, weight, marked } of columns) {
    const x = 30 + place * (width - 60) - wide / 2;
    const low = tall(marked), all = Math.max(tall(weight), 0.5);
    const bar = (kind, top, tall) => drawn('rect', { class: kind, x, width: wide, y: height + 10 - top, height: tall });
    if (marked < weight) bars.push(bar('bar', all, all - low));
    if (marked > 0n) bars.push(bar('tail', low, Math.max(low, 0.5)));
  }
  return bars;
}

// The axis, with the smallest, the observed and the largest value.
function axisOf(report, placeOf, width, height) {
  const { over, under } = report.statistic;
  const said = value => under === 1n ? grouped(value) : roundedText(value, under);
  const text = (value, x, anchor, kind = '') => drawn('text', { x, y: height + 28, 'text-anchor': anchor, class: kind },
    said(value));
  const place = 30 + placeOf(over) * (width - 60);
  const anchor = place < 70 ? 'start' : place > width - 70 ? 'end' : 'middle';
  const parts = [
    drawn('line', { class: 'axis', x1: 10, x2: width - 10, y1: height + 10, y2: height + 10 }),
    drawn('line', { class: 'seen', x1: place, x2: place, y1: 4, y2: height + 14 }),
    text(over, place, anchor, 'observed'),
  ];
  if (place > 160) parts.push(text(report.values[0][0], 10, 'start'));
  if (place < width - 160) parts.push(text(report.values[report.values.length - 1][0], width - 10, 'end'));
  return parts;
}

// The picture with its caption, which is also its text for readers who cannot see it.
function pictureOf(report, tail, test, width) {
  const height = 190, isExtreme = markedBy(report, tail, test), placeOf = placesOf(report, test);
  const svg = drawn('svg', { viewBox: `0 0 ${width} ${height + 36}`, role: 'img', 'aria-labelledby': 'picture-title' });
  const scale = isLikelihood(report, test) ? ' The scale is logarithmic.' : '';
  const caption = captionOf(report, tail, isExtreme !== null) + scale;
  svg.append(drawn('title', { id: 'picture-title' }, caption));
  svg.append(...barsOf(columnsOf(report.values, placeOf, isExtreme), width, height));
  svg.append(...axisOf(report, placeOf, width, height));
  return { svg, caption };
}

function captionOf(report, name, isMarked) {
  const { over, under, decimals } = report.tails.find(tail => tail.name === name);
  const marked = isMarked ? `The marked tail is ${name}, ${over}/${under} ${decimals}.` : 'No tail is marked.';
  return `The distribution of the statistic, which has ${grouped(report.values.length)} values. The dashed line is the `
    + `observed value, ${quotientText(report.statistic)}. ${marked}`;
}
