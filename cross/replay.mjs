// Puts the stored cases to the library as WebAssembly, as replay.c does on the other processors:
//
//     node cross/replay.mjs GROOVEPAWN.WASM CASES WRONG
import { readFileSync } from 'node:fs';
import { replay } from './cases.mjs';
import { Library } from './library.mjs';

const [wasm, casesPath, wrongPath] = process.argv.slice(2);
const library = new Library(wasm);

function report(title, path) {
  const { counts, different, all } = replay(library, readFileSync(path));
  console.log(`${title}: ${counts.flat().join(' ')}; different ${different}`);
  return [different, all];
}

const [different] = report('stored cases', casesPath);
const [noticed, all] = report('wrong expectations', wrongPath);
console.log(`${different} different, ${noticed} of ${all} wrong ones noticed`);
process.exitCode = different !== 0 || noticed !== all ? 1 : 0;
