// What the tests of the page share.
import fs from 'node:fs';
import path from 'node:path';

// The words, the bytes of the file and the expected transcript of a problem.
export function problemOf(folder) {
  const words = fs.readFileSync(path.join(folder, 'words'), 'utf8').split('\n').slice(0, -1);
  const isFile = name => fs.existsSync(name) && fs.statSync(name).isFile();
  const file = words.slice(1).map(word => path.join(folder, word)).find(isFile);
  const wanted = fs.readFileSync(path.join(folder, 'wanted'), 'utf8');
  return { words, bytes: file === undefined ? new Uint8Array() : fs.readFileSync(file), wanted };
}

export function transcript({ status, report, line }) {
  return `${report}-- standard error\n${line}-- status ${status}\n`;
}
