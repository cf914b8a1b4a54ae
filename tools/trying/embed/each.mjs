// each.mjs PACKAGE FILE..: prints what each call of the package of npm gives for each text.
import { readFileSync, writeSync } from 'node:fs';
import { pathToFileURL } from 'node:url';

const [place, ...names] = process.argv.slice(2);
const { load } = await import(pathToFileURL(`${place}/index.mjs`));
const jslit = await load();
const calls = {
    check: (text) => jslit.check(text),
    quick: (text) => jslit.quick(text),
    schedule: (text) => jslit.schedule(text, 'A,B'),
    why: (text) => jslit.why(text),
    unmet: (text) => jslit.why(text, { question: 'unmet' }),
    race: (text) => jslit.why(text, { question: 'race' }),
    json: (text) => jslit.why(text, { json: true }),
    text: (text) => jslit.text(text),
};
for (const name of names) {
    const text = new Uint8Array(readFileSync(name));
    for (const [call, ask] of Object.entries(calls)) {
        const { status, bytes } = ask(text);
        const told = Buffer.concat([Buffer.from(`${name} ${call} ${status} ${bytes.length}\n`), bytes]);
        for (let at = 0; at < told.length; ) at += writeSync(1, told, at);
    }
}
