// The bits of signals in a payload.

export const bitCount = cluster => cluster.payload_words * 16;
export const usedBits = signals => signals.reduce((sum, signal) => sum + signal.length, 0);

// A signal's bits: from the least significant one in little order, from the most significant one in big order.
export function bitsOf({start, length, order}) {
  const bits = [];
  for (let count = 0, bit = start; count < length; count += 1) {
    bits.push(bit);
    if (order === "little") bit += 1;
    else bit = bit % 8 > 0 ? bit - 1 : bit + 15;
  }
  return bits;
}
