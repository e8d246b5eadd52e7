// Small helpers for numbers, bytes and words, which know nothing of disks.

export const below = n => [...Array(n).keys()];

/** `0a1b` as two bytes. */
export const bytesOf = hex => Uint8Array.from(hex.match(/../g) ?? [], pair => parseInt(pair, 16));

/** `1 set`, `2 sets`. */
export const countOf = (count, one, many) => `${count.toLocaleString("en")} ${count === 1 ? one : many}`;

/** `a`, `a and b`, `a, b and c`; or with another word than `and`. */
export const listOf = (words, last = "and") => words.length < 2 ? words.join("")
  : `${words.slice(0, -1).join(", ")} ${last} ${words.at(-1)}`;

/** The first letters of a text, with dots where some are left out. */
export const shortened = (text, most) => text.length > most ? `${text.slice(0, most - 1)}\u2026` : text;

/** A word as it is written on a command line. */
export const quoted = word => /^[\w@%+=:,./-]+$/.test(word) ? word : `'${word.replaceAll("'", "'\\''")}'`;
