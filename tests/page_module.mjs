// Tests the module of a page in Node on the problems of `page`: page_module.mjs PAGE PROBLEM... Each check prints a line,
// with 0 if it passed and 1 if not.
import fs from 'node:fs';
import path from 'node:path';
import vm from 'node:vm';
import zlib from 'node:zlib';
import { problemOf, transcript } from './page_problems.mjs';

const [page, ...problems] = process.argv.slice(2);
const html = fs.readFileSync(page, 'utf8');
const partOf = id => html.match(new RegExp(`<script type="[^"]*" id="${id}">([^<]*)</script>`))[1];
const bytes = zlib.gunzipSync(Buffer.from(partOf('module'), 'base64'));

// In drafts of the standard 64-bit memories grew by numbers.
const { grow } = WebAssembly.Memory.prototype;
WebAssembly.Memory.prototype.grow = function growEither(pages) {
  try {
    return grow.call(this, pages);
  } catch (fault) {
    if (!(fault instanceof TypeError)) throw fault;
    return grow.call(this, Number(pages));
  }
};

const source = html.match(/<script type="text\/plain" id="worker">([\s\S]*?)<\/script>/)[1];
globalThis.onmessage = null;
const Engine = vm.runInThisContext(`${source}; Engine`);
const engineOf = module => new Engine(new WebAssembly.Module(module));
const tell = (right, what) => console.log(right ? 0 : 1, `module: ${what}`);

function isWanted(engine, problem) {
  return transcript(engine.answer(problem.words, problem.bytes)) === problem.wanted;
}

// The positions of a section and its content in the module, by the section's number.
function sectionOf(module, number) {
  let at = 8;
  const length = () => {
    let value = 0;
    for (let shift = 0; ; shift += 7) {
      value += (module[at] & 127) * 2 ** shift;
      at += 1;
      if (module[at - 1] < 128) return value;
    }
  };
  while (at < module.length) {
    const from = at, is = module[at] === number;
    at += 1;
    const size = length();
    if (is) return { from, content: at, to: at + size };
    at += size;
  }
  throw new Error(`no section ${number}`);
}

// A number as a module encodes it.
function numberBytes(value) {
  return value < 128 ? [value] : [value % 128 + 128, ...numberBytes(Math.floor(value / 128))];
}

// The module with a memory that may grow by only so many pages.
function withLittleMemory(module, pages) {
  const { from, content, to } = sectionOf(module, 5);
  const least = new WebAssembly.Instance(new WebAssembly.Module(module)).exports.memory.buffer.byteLength / 65536;
  if (module[content] !== 1 || module[content + 1] !== 4) throw new Error('the memory is limited');
  const memory = [1, 5, ...numberBytes(least), ...numberBytes(least + pages)];
  const section = Uint8Array.of(5, ...numberBytes(memory.length), ...memory);
  return Buffer.concat([module.subarray(0, from), section, module.subarray(to)]);
}

// The module with a stack of 32 KiB instead of 8 MiB.
function withLittleStack(module) {
  const { content, to } = sectionOf(module, 6);
  const at = module.subarray(content, to).indexOf(Uint8Array.of(0x42, 0x80, 0x80, 0x80, 0x04));
  if (at < 0) throw new Error('no stack of 8 MiB');
  const changed = Buffer.from(module);
  changed.set([0x42, 0x80, 0x80, 0x82, 0x00], content + at);
  return changed;
}

function traps(call) {
  try {
    call();
    return false;
  } catch (fault) {
    return fault instanceof WebAssembly.RuntimeError;
  }
}

const made = new WebAssembly.Module(bytes);
tell(WebAssembly.Module.imports(made).length === 0, 'it imports nothing');
const functions = WebAssembly.Module.exports(made).filter(one => one.kind === 'function');
tell(functions.map(one => one.name).join() === 'exact_answer', 'it exports one function');

const engine = engineOf(bytes);
for (const folder of problems) tell(isWanted(engine, problemOf(folder)), path.basename(folder));

const powers = `g,v\n${Array.from({ length: 22 }, (_, power) => `${power % 2},${2 ** power}\n`).join('')}`;
const hungry = ['raw', 'f.csv', '--distribution'];
const poor = engineOf(withLittleMemory(bytes, 256));
const noMemory = '-- standard error\nrefused: no memory\n-- status 7\n';
tell(transcript(poor.answer(hungry, Buffer.from(powers))) === noMemory, 'want of memory');
tell(poor.answer(['--help'], new Uint8Array()).status === 0, 'and then another call');
const six = [['ranksum', 'f.csv'], Buffer.from('group,value\nx,1\nx,2\nx,3\ny,4\ny,5\ny,6\n')];
tell(traps(() => engineOf(withLittleStack(bytes)).answer(...six)), 'want of stack ends a call');

const { exact_answer: exactAnswer } = new WebAssembly.Instance(made).exports;
const wild = () => exactAnswer(1n << 60n, 8n, 0n, 0n, 0n, 0n, 0n, 0n, 0n);
tell(traps(wild), 'a pointer outside of the memory ends a call');
tell(traps(() => exactAnswer(0n, 0n, 0n, 0n, 0n, 0n, 0n, 0n, 1024n)), 'and that instance takes no other');
