// Characters that nobody sees, or that turn round the order in which a text is read, as marks that anybody sees.

// what has no look of its own (soft hyphens, joiners, spaces of no width), what orders bidirectional text, line and paragraph
// separators, and control characters but tab and line feed
const UNSEEN = /[\p{Default_Ignorable_Code_Point}\p{Bidi_Control}\p{Zl}\p{Zp}\ufff9-\ufffb\u0000-\u0008\u000b-\u001f\u007f-\u009f]/gu;

const markOf = (character) => `[U+${character.codePointAt(0).toString(16).toUpperCase().padStart(4, "0")}]`;

/** A text with each such character as its mark, as [U+202E]; any other text as it is. */
export const visible = (text) => text.replace(UNSEEN, markOf);
