/** What the engine takes at most: the numbers of include/pastaspur.h and of the refusals 1, 3, 4, 6, 8, 19 and 22. */
export const MACHINES = 6;
export const SYMBOLS = 63;
export const STATES = 32;
export const ARCS = 255;
export const MARKS = 15;
/** The product of the machines' state counts. */
export const PRODUCT = 128;
/** Symbols of a word. */
export const WORD = 24;
/** Pairs of a candidate. */
export const PAIRS = 3199;
/** Rows of a tableau, and of a live tableau. */
export const ROWS = 32;
/** Lines of the board's input. */
export const LINES = 1000;
/** Conditions in a list. */
export const CONDITIONS = 64;
/** Marks of a candidate for one machine, as a tableau's row holds them. */
export const COUNT = 65535;
/** A weight in thousandths. */
export const WEIGHT = 4000000000;

export const WORK_NUMBERS = 25600;
export const WEIGHTS_WORK_NUMBERS = 6400;
export const ANSWER_BYTES = 6398;
export const CARD_BYTES = 30830;
/** More than any accepted card has: of a longer file the engine sees that much, and refuses it. */
export const FILE_BYTES = CARD_BYTES + 1;
