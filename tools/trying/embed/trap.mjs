// trap.mjs PACKAGE FILE: where the engine ends a call, Trap is thrown, and the next call is right. Prints what is otherwise.
import { readFileSync } from 'node:fs';
import { pathToFileURL } from 'node:url';

const [place, name] = process.argv.slice(2);
const { load, Trap } = await import(pathToFileURL(`${place}/index.mjs`));
const text = new Uint8Array(readFileSync(name));
const jslit = await load();
const wanted = Buffer.from(jslit.check(text).bytes);
const { Instance } = WebAssembly;
// An instance whose call runs into a trap of its own: an address past the end of the memory.
WebAssembly.Instance = function (module, imports) {
    const { exports } = new Instance(module, imports);
    return { exports: { ...exports, jslit_check: (...words) => exports.jslit_check(0xffff_fff0n, ...words.slice(1)) } };
};
const trapped = await load();
try {
    trapped.check(text);
    console.log('no trap');
} catch (error) {
    if (!(error instanceof Trap)) console.log(`another error: ${error}`);
}
WebAssembly.Instance = Instance;
if (Buffer.compare(Buffer.from(trapped.check(text).bytes), wanted)) console.log('a wrong answer after a trap');
