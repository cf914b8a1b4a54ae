// jslit in WebAssembly, for Node and for pages. The module imports nothing: it has its memory, and no files, clock or network.

const FIRST_ROOM = 1 << 20; // bytes: an answer that is longer is computed twice
const OUT_OF_MEMORY = 3;
const PAGE = 65536;
const QUESTIONS = { met: 0, unmet: 1, race: 2, choice: 3, from: 4 };
const NOTHING = new Uint8Array();

/** The end of the stack, or a fault of the engine: what was computed is lost, and the next call begins with a new memory. */
export class Trap extends Error {}

async function bytesOf(url) {
    if (url.protocol !== 'file:') return (await fetch(url)).arrayBuffer();
    const { readFile } = await import('node:fs/promises');
    return readFile(url);
}

const asBytes = (text) => (typeof text === 'string' ? new TextEncoder().encode(text) : text);

class Jslit {
    #module;
    #most;
    #own;

    constructor(module, most) {
        this.#module = module;
        this.#most = most;
    }

    // A memory never shrinks, and after a trap it is half written: then the next call begins with a new one.
    #exports() {
        if (!this.#own) {
            this.#own = new WebAssembly.Instance(this.#module, {}).exports;
            this.#own.bound(BigInt(this.#most));
        }
        return this.#own;
    }

    #call(name, text, ...more) {
        const held = [];
        try {
            return this.#answer(this.#exports(), held, name, [text, ...more]);
        } catch (error) {
            this.#own = undefined;
            if (error instanceof WebAssembly.RuntimeError || error instanceof RangeError) throw new Trap(String(error), { cause: error });
            throw error;
        } finally {
            for (const at of held) this.#own?.leave(at);
        }
    }

    #answer(own, held, name, given) {
        const room = (size) => {
            const at = own.room(BigInt(size));
            if (at) held.push(at);
            return at;
        };
        const refused = { status: OUT_OF_MEMORY, bytes: NOTHING };
        const words = [];
        for (const each of given) {
            if (!(each instanceof Uint8Array)) {
                words.push(each);
                continue;
            }
            const at = room(each.length);
            if (!at) return refused;
            new Uint8Array(own.memory.buffer).set(each, Number(at));
            words.push(at, BigInt(each.length));
        }
        const length = room(8);
        for (let size = FIRST_ROOM; length; ) {
            const out = room(size);
            if (!out) return refused;
            const status = own[name](...words, out, BigInt(size), length);
            const whole = Number(new DataView(own.memory.buffer).getBigUint64(Number(length), true));
            if (whole <= size) return { status, bytes: new Uint8Array(own.memory.buffer, Number(out), whole).slice() };
            own.leave(held.pop());
            size = whole;
        }
        return refused;
    }

    check(text) {
        return this.#call('jslit_check', asBytes(text));
    }

    quick(text) {
        return this.#call('jslit_quick', asBytes(text));
    }

    schedule(text, turns) {
        return this.#call('jslit_schedule', asBytes(text), asBytes(turns));
    }

    why(text, { question = 'met', choice = 0n, words = '', condition = '', most = 0, json = false } = {}) {
        if (!Object.hasOwn(QUESTIONS, question)) throw new TypeError(`jslit: there is no question ${question}`);
        const asked = [QUESTIONS[question], BigInt(choice), asBytes(words), asBytes(condition), BigInt(most), Number(json)];
        return this.#call('jslit_why', asBytes(text), ...asked);
    }

    text(text) {
        return this.#call('jslit_text', asBytes(text));
    }
}

/** Loads the module: `bytes`, or else the one beside this file. `most` is how many bytes of memory it may take, the whole of it. */
export async function load({ bytes, most = PAGE * PAGE } = {}) {
    return new Jslit(await WebAssembly.compile(bytes ?? (await bytesOf(new URL('jslit.wasm', import.meta.url)))), most);
}
