/** Pieces of SVG as text, and how wide a text is in the page's type. */

export const INK = "#222222";
export const MARKED = "#a3263b";
export const SOFT = "#6b6b6b";
export const PAPER = "#fdfcf9";
export const FONT = "Times, 'Times New Roman', serif";

export function escaped(text: string): string {
  return text.replace(/&/g, "&amp;").replace(/</g, "&lt;").replace(/>/g, "&gt;").replace(/"/g, "&quot;");
}

const NARROW = /[ .,:;!'|iljtfrI()[\]-]/;
const WIDE = /[mwMW…∅ʃʒɱʍ]/;

/** About the width of a text of Times, as all have it: no browser is at hand where the command line draws. */
export function textWidth(text: string, size: number): number {
  const signs = [...text.normalize("NFC").replace(/\p{M}/gu, "")];
  return size * signs.reduce((sum, sign) => sum + (NARROW.test(sign) ? 0.33 : WIDE.test(sign) ? 0.85 : /\p{Lu}/u.test(sign) ? 0.7 : 0.54), 0);
}

export function number(value: number): string {
  return String(Math.round(value * 10) / 10);
}
