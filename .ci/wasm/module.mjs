// The proved library as a module for WebAssembly: its calls over texts.
import fs from "node:fs";

export const DONE = 0, REFUSED = 1, ROOM = 3, MEMORY = 4;
const NO_BOUND = 2n ** 64n - 1n;

export class Library {
    constructor(path) {
        const module = new WebAssembly.Module(fs.readFileSync(path));
        if (WebAssembly.Module.imports(module).length) throw new Error("the module has imports");
        this.calls = new WebAssembly.Instance(module, {}).exports;
        this.numbers = this.take(16);
        this.room = 64;
        this.out = this.take(this.room);
    }

    get bytes() {
        return new Uint8Array(this.calls.memory.buffer);
    }

    size() {
        return this.calls.memory.buffer.byteLength;
    }

    taken() {
        return Number(this.calls.icu_locale_taken());
    }

    // Behind so many requests for memory each is refused.
    grants(requests = NO_BOUND) {
        this.calls.icu_locale_grants(BigInt(requests));
    }

    bound(bytes = NO_BOUND) {
        this.calls.icu_locale_bound(BigInt(bytes));
    }

    take(length) {
        const place = this.calls.icu_locale_take(BigInt(length));
        if (!place) throw new Error("there is no memory for the test");
        if (place % 16n) throw new Error("a block is not at a multiple of 16");
        return place;
    }

    give(place) {
        this.calls.icu_locale_give(place);
    }

    put(text) {
        const bytes = Buffer.from(text), place = this.take(bytes.length);
        this.bytes.set(bytes, Number(place));
        return [place, BigInt(bytes.length)];
    }

    // A closed handle.
    handle() {
        const place = this.take(8);
        this.bytes.fill(0, Number(place), Number(place) + 8);
        return place;
    }

    isOpen(handle) {
        return this.numberAt(handle) !== 0;
    }

    numberAt(place) {
        return Number(new DataView(this.calls.memory.buffer).getBigUint64(Number(place), true));
    }

    // The number and the answer of a call, in a room that is made wide enough.
    answer(handle, command, line) {
        const words = [handle, ...command, ...line];
        const ask = () => this.calls.icu_locale_answer(...words, this.out, BigInt(this.room), this.numbers);
        let number = ask();
        if (number === ROOM) {
            this.give(this.out);
            this.room = 2 * this.numberAt(this.numbers);
            this.out = this.take(this.room);
            number = ask();
        }
        const start = Number(this.out), length = this.numberAt(this.numbers);
        return [number, Buffer.from(this.bytes.subarray(start, start + (number > REFUSED ? 0 : length)))];
    }
}
