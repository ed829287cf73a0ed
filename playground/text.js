// The bytes of a file, and the text that a text area shows of them. A text area has a line feed for each line end, so the
// line ends that the file has are kept beside the text; and a byte that belongs to no character of UTF-8 is shown as the
// lone surrogate 0xDC00 + byte, which stands for it alone. So what is not edited is handed on byte for byte.
"use strict";

const LINE_END = /\r\n|\r|\n/g;

function decoded(bytes) {
  const strict = new TextDecoder("utf-8", {fatal: true, ignoreBOM: true});
  try { return strict.decode(bytes); } catch { /* some byte is of no character */ }
  let text = "";
  for (let at = 0; at < bytes.length;) {
    const [character, length] = characterAt(bytes, at, strict);
    text += character;
    at += length;
  }
  return text;
}

// The character at this place and how many bytes it has.
function characterAt(bytes, at, strict) {
  for (let length = 1; length <= 4 && at + length <= bytes.length; length++) {
    try { return [strict.decode(bytes.subarray(at, at + length)), length]; } catch { /* one byte more */ }
  }
  return [String.fromCharCode(0xDC00 + bytes[at]), 1];
}

function encoded(text) {
  const pieces = text.split(/(?<![\uD800-\uDBFF])([\uDC80-\uDCFF])/);
  const bytes = pieces.map((piece, i) => i % 2 ? [piece.charCodeAt(0) - 0xDC00] : new TextEncoder().encode(piece));
  const whole = new Uint8Array(bytes.reduce((sum, it) => sum + it.length, 0));
  let at = 0;
  for (const it of bytes) { whole.set(it, at); at += it.length; }
  return whole;
}

// A file as a text area shows it: its text, and its line ends in their order.
function fileOf(bytes) {
  const text = decoded(bytes);
  return {shown: text.replace(LINE_END, "\n"), ends: text.match(LINE_END) ?? []};
}

function bytesOf({shown, ends}) {
  let line = 0;
  return encoded(shown.replace(/\n/g, () => ends[line++]));
}

// The file after an edit: the lines before and after it keep their ends, and a new one has the end that most lines have.
function edited({shown: old, ends}, shown) {
  const most = Math.min(old.length, shown.length);
  let front = 0, back = 0;
  while (front < most && old[front] === shown[front]) front++;
  while (back < most - front && old.at(-1 - back) === shown.at(-1 - back)) back++;
  const lines = text => text.split("\n").length - 1;
  const before = lines(shown.slice(0, front)), after = lines(shown.slice(shown.length - back));
  const added = Array(lines(shown) - before - after).fill(usualEnd(ends));
  return {shown, ends: [...ends.slice(0, before), ...added, ...ends.slice(ends.length - after)]};
}

function usualEnd(ends) {
  const count = end => ends.filter(it => it === end).length;
  return ["\n", "\r\n", "\r"].reduce((best, end) => count(end) > count(best) ? end : best);
}

function endsInWords(ends) {
  const NAMES = {"\n": "LF", "\r\n": "CRLF", "\r": "CR"};
  return [...new Set(ends)].map(end => NAMES[end]).join(" and ") || "no";
}

// The offset in bytes of a place in the text that is shown, and the place of an offset.
function offsetOf({shown, ends}, place) {
  return bytesOf({shown: shown.slice(0, place), ends}).length;
}

function placeOf(file, offset) {
  return fileOf(bytesOf(file).subarray(0, offset)).shown.length;
}

function lineOf(shown, place) {
  return shown.slice(0, place).split("\n").length;
}
