'use strict';
// The calls of icu_locale.h by the module for WebAssembly, as the addon has them: over the memory of one instance. A handle
// is a block of that memory, which an object stands for.
const { LINE_REFUSED, LIST } = require('./asking.js');

const [ROOM, MEMORY, NO_LOAN] = [3, 4, -1];
const HANDLE = 8n;
const SHORT = 48; // what is so short is written and read byte by byte
const COMMANDS = 100; // so many are kept
const FIRST_ROOM = 256; // bytes of a block that is kept
const LONG_BLOCK = 65536; // a block that is longer is not
const PROBE = Uint8Array.of(0, 97, 115, 109, 1, 0, 0, 0, 5, 3, 1, 4, 1); // a module that has a memory of 64 bits

/** Whether this engine has memories of 64 bits. */
function hasWideMemory() {
  return typeof WebAssembly === 'object' && WebAssembly.validate(PROBE);
}

// A handle, of a block that has its place and the names that are lent to its tables. It is given back when it is collected.
class Held {
  constructor(block) {
    this.block = block;
  }

  get place() {
    return this.block.place;
  }
}

class Module {
  #its;
  #bytes;
  #coder = new TextEncoder();
  #decoder = new TextDecoder('utf-8', { ignoreBOM: true });
  #commands = new Map();
  #command = { place: 0n, room: 0 };
  #line = { place: 0n, room: 0 };
  #out = { place: 0n, room: 0 };
  #numbers;
  #collected = new FinalizationRegistry((block) => this.#letGo(block));

  constructor(instance) {
    this.#its = instance.exports;
    this.#bytes = new Uint8Array(this.#its.memory.buffer);
    this.#numbers = this.#its.icu_locale_take(16n);
    const isRoom = this.#numbers && this.#widen(this.#line, FIRST_ROOM) && this.#widen(this.#out, FIRST_ROOM);
    if (!isRoom) throw new RangeError('there is no memory');
  }

  // The memory's bytes. A memory that has grown has another buffer.
  #all() {
    if (this.#bytes.length === 0) this.#bytes = new Uint8Array(this.#its.memory.buffer);
    return this.#bytes;
  }

  #number(place) {
    return Number(new DataView(this.#its.memory.buffer).getBigUint64(Number(place), true));
  }

  // Gives back the blocks that a long text has taken. Where memory is refused, they stay.
  #narrow() {
    for (const block of [this.#command, this.#line, this.#out]) {
      if (block.room > LONG_BLOCK) this.#widen(block, FIRST_ROOM);
    }
  }

  // Makes a block as long as that, and forgets what it holds.
  #widen(block, room) {
    const place = this.#its.icu_locale_take(BigInt(room));
    if (!place) return false;
    if (block.place) this.#its.icu_locale_give(block.place);
    Object.assign(block, { place, room });
    return true;
  }

  // Puts a text at a place that has room for it, and gives its length.
  #put(text, place) {
    const bytes = this.#all();
    const start = Number(place);
    if (typeof text !== 'string') {
      bytes.set(text, start);
      return text.length;
    }
    for (let at = 0; at < text.length && text.length <= SHORT; at += 1) {
      const unit = text.charCodeAt(at);
      if (unit > 127) break;
      bytes[start + at] = unit;
      if (at === text.length - 1) return text.length;
    }
    return this.#coder.encodeInto(text, bytes.subarray(start, start + 3 * text.length)).written;
  }

  #text(place, length) {
    const bytes = this.#all();
    const start = Number(place);
    let text = '';
    for (let at = start; at < start + length && length <= SHORT; at += 1) {
      if (bytes[at] > 127) break;
      text += String.fromCharCode(bytes[at]);
    }
    return text.length === length ? text : this.#decoder.decode(bytes.subarray(start, start + length));
  }

  // A call over a text that is put into a block of its own.
  #over(text, call) {
    const it = typeof text === 'string' ? this.#coder.encode(text) : text;
    const block = this.#its.icu_locale_take(BigInt(it.length));
    if (!block) return MEMORY;
    this.#all().set(it, Number(block));
    const number = call(block, BigInt(it.length));
    this.#its.icu_locale_give(block);
    return number;
  }

  // A handle by a call that opens one, or the number of a refusal. Its tables may have names that are lent.
  #made(call, lent = null) {
    const place = this.#its.icu_locale_take(HANDLE);
    if (!place) return MEMORY;
    this.#all().fill(0, Number(place), Number(place + HANDLE));
    const block = { place, lent: null };
    const number = call(place);
    if (number) {
      this.#letGo(block);
      return number;
    }
    this.#keep(block, lent);
    const held = new Held(block);
    this.#collected.register(held, block);
    return held;
  }

  #letGo(block) {
    this.#close(block);
    this.#its.icu_locale_give(block.place);
  }

  #close(block) {
    this.#its.icu_locale_close(block.place);
    this.#keep(block, null);
  }

  // Has names that are lent in place of others. Those that no handle has are given back.
  #keep(block, lent) {
    const before = block.lent;
    block.lent = lent;
    if (lent) lent.handles += 1;
    if (before) before.handles -= 1;
    if (before && before.handles === 0) this.#its.icu_locale_give(before.place);
  }

  // The place and the length of the words of a command or a syntax; null where memory is refused. The first and short ones
  // are kept.
  #words(command) {
    const kept = this.#commands.get(command);
    if (kept) return kept;
    const isKept = typeof command === 'string' && command.length <= SHORT && this.#commands.size < COMMANDS;
    const block = isKept ? { place: 0n, room: 0 } : this.#command;
    const most = 3 * command.length;
    if (most >= block.room && !this.#widen(block, most)) return null;
    const words = [block.place, BigInt(this.#put(command, block.place))];
    if (isKept) this.#commands.set(command, words);
    return words;
  }

  open(json) {
    return this.#made((to) => this.#over(json, (place, length) => this.#its.icu_locale_open(place, length, to)));
  }

  supplement(held, json) {
    return this.#over(json, (place, length) => this.#its.icu_locale_supplement(held.place, place, length));
  }

  share(held) {
    return this.#made((to) => this.#its.icu_locale_share(held.place, to), held.block.lent);
  }

  /** Lends names in the flat form, of which a copy stays as long as a handle has the tables. */
  lendNames(held, names) {
    const place = this.#its.icu_locale_take(BigInt(names.length));
    if (!place) return MEMORY;
    this.#all().set(names, Number(place));
    const number = this.#its.icu_locale_lend_names(held.place, place, BigInt(names.length));
    if (number) this.#its.icu_locale_give(place);
    else this.#keep(held.block, { place, handles: 0 });
    return number;
  }

  /** The names of a handle's tables in the flat form, or the number of a refusal. */
  flatNames(held) {
    const number = this.#written(() => (
      this.#its.icu_locale_flat_names(held.place, this.#out.place, BigInt(this.#out.room), this.#numbers)));
    if (number) return number;
    const start = Number(this.#out.place);
    const names = this.#all().slice(start, start + this.#number(this.#numbers));
    this.#narrow();
    return names;
  }

  available(held, syntax, list) {
    const word = this.#words(syntax);
    if (!word) return MEMORY;
    return this.#made((to) => this.#over(list, (place, length) => (
      this.#its.icu_locale_available_in(held.place, ...word, place, length, to))), held.block.lent);
  }

  /** The places of what is met, or the number where nothing is and of a refusal. */
  negotiate(held, syntax, requests) {
    const word = this.#words(syntax);
    if (!word) return MEMORY;
    const other = this.#numbers + 8n;
    const number = this.#over(requests, (place, length) => (
      this.#its.icu_locale_negotiate_in(held.place, ...word, place, length, this.#numbers, other)));
    return number ? number : [this.#number(this.#numbers), this.#number(other)];
  }

  /** The place of the first text of a list that is no identifier, or the number where there is none. */
  listFault(syntax, list) {
    const word = this.#words(syntax);
    if (!word) return MEMORY;
    const number = this.#over(list, (place, length) => (
      this.#its.icu_locale_list_fault(...word, place, length, this.#numbers)));
    return number === LIST ? [this.#number(this.#numbers)] : number;
  }

  /** The bytes of the first piece of a text that no locale identifier can have there, or the number where there is none. */
  fault(text) {
    const other = this.#numbers + 8n;
    const number = this.#over(text, (place, length) => this.#its.icu_locale_fault(place, length, this.#numbers, other));
    return number === LINE_REFUSED ? [this.#number(this.#numbers), this.#number(other)] : number;
  }

  /** The text of an accepted line, and else a number and a text. */
  answer(held, command, line) {
    const most = typeof line === 'string' ? 3 * line.length : line.length;
    const words = this.#words(command);
    if (!words || (most > this.#line.room && !this.#widen(this.#line, most))) return [MEMORY, ''];
    const length = BigInt(this.#put(line, this.#line.place));
    const told = this.#told(() => this.#its.icu_locale_answer(
      held.place, words[0], words[1], this.#line.place, length, this.#out.place, BigInt(this.#out.room), this.#numbers));
    if (Math.max(this.#command.room, this.#line.room, this.#out.room) > LONG_BLOCK) this.#narrow();
    return told;
  }

  /** The name of the first table that a command needs and a handle's tables leave out, and else a list of a number and a text. */
  missing(held, command) {
    const words = this.#words(command);
    if (!words) return [MEMORY, ''];
    return this.#told(() => (
      this.#its.icu_locale_missing(held.place, ...words, this.#out.place, BigInt(this.#out.room), this.#numbers)));
  }

  /**
   * Lets go what a long answer has taken in the library, whose handle comes to hold the same once more: tables, or a list
   * too, in the syntax of a word. Where memory is refused, it stays.
   */
  giveBack(held, syntax, list) {
    const other = this.share(held);
    if (typeof other === 'number') return;
    const word = list === undefined ? null : this.#words(syntax);
    if (list === undefined) this.#its.icu_locale_share(other.place, held.place);
    if (word) {
      this.#over(list, (place, length) => this.#its.icu_locale_available_in(other.place, ...word, place, length, held.place));
    }
    this.close(other);
  }

  /** The name of the data, or a list of the number where it has none, and of a refusal. */
  dataName(held) {
    return this.#told(() => (
      this.#its.icu_locale_data_name(held.place, this.#out.place, BigInt(this.#out.room), this.#numbers)));
  }

  // The number of a call that writes, which is made again where it wants more room.
  #written(ask) {
    const number = ask();
    if (number !== ROOM) return number;
    return this.#widen(this.#out, this.#number(this.#numbers)) ? ask() : MEMORY;
  }

  // The text that a call writes, or a list of its number and a text.
  #told(ask) {
    const number = this.#written(ask);
    if (number === MEMORY) return [MEMORY, ''];
    const answer = this.#text(this.#out.place, this.#number(this.#numbers));
    return number ? [number, answer] : answer;
  }

  isSettled(held) {
    return this.#its.icu_locale_is_settled(held.place);
  }

  close(held) {
    this.#close(held.block);
  }

  lend() {
    return NO_LOAN;
  }

  borrow() {
    return NO_LOAN;
  }
}

module.exports = { Module, hasWideMemory };
