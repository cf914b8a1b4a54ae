// bounded.mjs PACKAGE LARGE SMALL: within 64 MB of memory a text that needs more ends with status 3, and a small one after it is answered;
// within 4 GB both are. At many smaller bounds each answer is whole or status 3. More than there is at all is refused too. Prints what
// is otherwise.
import { readFileSync } from 'node:fs';
import { pathToFileURL } from 'node:url';

const [place, large, small] = process.argv.slice(2);
const { load } = await import(pathToFileURL(`${place}/index.mjs`));
const [long, short] = [large, small].map((name) => new Uint8Array(readFileSync(name)));
const told = ({ status, bytes }) => `${status} ${Buffer.from(bytes).toString('latin1')}`;
const whole = await load();
const wanted = told(whole.check(short));
if (whole.check(long).status !== 0) console.log('4 GB are not enough');
const bounded = await load({ most: 64 << 20 });
for (let turn = 0; turn < 3; turn++) {
    const { status, bytes } = bounded.check(long);
    if (status !== 3 || bytes.length) console.log(`within 64 MB: status ${status}, ${bytes.length} bytes`);
    if (told(bounded.check(short)) !== wanted) console.log('a wrong answer after status 3');
}
const { exports } = new WebAssembly.Instance(new WebAssembly.Module(readFileSync(`${place}/jslit.wasm`)));
for (const size of [1n << 31n, 1n << 32n, 5n << 30n, 1n << 41n, (1n << 64n) - 1n]) {
    if (exports.room(size) !== 0n && size >> 32n) console.log(`room for ${size} bytes`);
}
if (exports.room(100n) === 0n) console.log('no room after a refusal');
const seen = new Set();
for (let most = 8 << 20; most <= 12 << 20; most += 65536) {
    const answer = (await load({ most })).check(short);
    seen.add(answer.status);
    if (answer.status !== 3 && told(answer) !== wanted) console.log(`within ${most} bytes: status ${answer.status}`);
}
if (!seen.has(0) || !seen.has(3)) console.log(`statuses ${[...seen]} alone at small bounds`);
