// What is shown of a text that may be a stranger's.

// First and last of the characters that aren't seen, or move what is: those that Unicode calls controls (Cc), White_Space but
// the space, Default_Ignorable_Code_Point, the marks of annotations (U+FFF9 to U+FFFB), and halves of surrogate pairs.
const HIDDEN = [
  [0, 0x1f], [0x7f, 0xa0], [0xad, 0xad], [0x34f, 0x34f], [0x61c, 0x61c], [0x115f, 0x1160], [0x1680, 0x1680], [0x17b4, 0x17b5],
  [0x180b, 0x180f], [0x2000, 0x200f], [0x2028, 0x202f], [0x205f, 0x206f], [0x3000, 0x3000], [0x3164, 0x3164], [0xd800, 0xdfff],
  [0xfe00, 0xfe0f], [0xfeff, 0xfeff], [0xffa0, 0xffa0], [0xfff0, 0xfffb], [0x1bca0, 0x1bca3], [0x1d173, 0x1d17a],
  [0xe0000, 0xe0fff],
];

function shown(character) {
  const point = character.codePointAt(0);
  if (!HIDDEN.some(([first, last]) => first <= point && point <= last)) return character;
  return point < 0x80 ? `\\x${point.toString(16).padStart(2, '0')}` : `\\u{${point.toString(16)}}`;
}

/** A text as it is shown: a character that isn't seen, or moves what is, stands in it as `\x1b` or `\u{202e}`. */
export const printable = (text) => Array.from(text, shown).join('');
