/** The engine's memory: what a call is lent is laid out behind the module's own data, anew for each call. */

const ALIGNED = 16;
const PAGE = 65536;

export interface Slice {
  readonly at: number;
  readonly length: number;
}

export class Memory {
  private readonly base: number;
  private next: number;
  /** The card that lies at the base already, and where it ends. */
  private held: Uint8Array | null = null;
  private heldEnd: number;

  constructor(private readonly memory: WebAssembly.Memory, heapBase: number) {
    this.base = aligned(heapBase);
    this.next = this.heldEnd = this.base;
  }

  /** Starts a call's layout without a card. */
  start(): void {
    this.held = null;
    this.next = this.base;
  }

  /** Starts a call's layout with a card. A card is never changed in place: the one that lies there is not copied again. */
  startWith(card: Uint8Array): Slice {
    if (card !== this.held) {
      this.start();
      this.put(card);
      this.held = card;
      this.heldEnd = this.next;
    }
    this.next = this.heldEnd;
    return { at: this.base, length: card.length };
  }

  /** Memory for a number of bytes, whose contents are left open. */
  take(bytes: number): Slice {
    const at = this.next;
    // A slice is never at the end of memory, an empty one neither.
    this.next = aligned(at + bytes + 1);
    const missing = this.next - this.memory.buffer.byteLength;
    if (missing > 0) this.memory.grow(Math.ceil(missing / PAGE));
    return { at, length: bytes };
  }

  put(bytes: ArrayLike<number>): Slice {
    const slice = this.take(bytes.length);
    new Uint8Array(this.memory.buffer).set(bytes, slice.at);
    return slice;
  }

  putShorts(numbers: ArrayLike<number>): Slice {
    const slice = this.take(2 * numbers.length);
    new Uint16Array(this.memory.buffer, slice.at, numbers.length).set(numbers);
    return { at: slice.at, length: numbers.length };
  }

  putWords(numbers: ArrayLike<number>): Slice {
    const slice = this.take(4 * numbers.length);
    new Uint32Array(this.memory.buffer, slice.at, numbers.length).set(numbers);
    return { at: slice.at, length: numbers.length };
  }

  putLongs(numbers: ArrayLike<bigint>): Slice {
    const slice = this.take(8 * numbers.length);
    new BigUint64Array(this.memory.buffer, slice.at, numbers.length).set(numbers);
    return { at: slice.at, length: numbers.length };
  }

  bytes(at: number, length: number): Uint8Array {
    return new Uint8Array(this.memory.buffer, at, length);
  }

  shorts(at: number, length: number): Uint16Array {
    return new Uint16Array(this.memory.buffer, at, length);
  }

  longs(at: number, length: number): BigUint64Array {
    return new BigUint64Array(this.memory.buffer, at, length);
  }
}

function aligned(at: number): number {
  return Math.ceil(at / ALIGNED) * ALIGNED;
}
