/** 0 an answer, 1 a refusal, 2 (`why` alone) there is no such question, 3 memory ran out; and what the command prints. */
export interface Answer {
    status: 0 | 1 | 2 | 3;
    bytes: Uint8Array;
}

export interface Question {
    question?: 'met' | 'unmet' | 'race' | 'choice' | 'from';
    choice?: bigint | number;
    words?: string | Uint8Array;
    condition?: string | Uint8Array;
    /** How many attempts are looked at, 1 to 1000000; 0 is 1000. */
    most?: number;
    json?: boolean;
}

/** Calls run at once, one behind the other, on the thread that calls; nothing stops them but the end of their worker. */
export interface Jslit {
    check(text: string | Uint8Array): Answer;
    quick(text: string | Uint8Array): Answer;
    schedule(text: string | Uint8Array, turns: string | Uint8Array): Answer;
    why(text: string | Uint8Array, question?: Question): Answer;
    text(text: string | Uint8Array): Answer;
}

/** The end of the stack, or a fault of the engine. The next call begins with a new memory. */
export class Trap extends Error {}

export function load(options?: { bytes?: BufferSource; most?: number }): Promise<Jslit>;
