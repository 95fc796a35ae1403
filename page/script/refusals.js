// The register's refusals in words: what each means, and what helps.

const REFUSALS = {
  1: ["BadText", "The text is no request, or a row does not have its header's fields.",
    "Numbers are 1 to 10 digits; fields are separated by commas."],
  2: ["UnknownKey", "The key belongs to nobody.", "Look for a slip, or ask the integrator whether it was changed."],
  3: ["NotYours", "This is not for you to ask.", "Suppliers place frames; the integrator grants lanes and opens variants."],
  4: ["BadName", "A name does not have the form of a name.", "1 to 32 letters, digits and underscores, a letter first."],
  5: ["BadCycles", "Base and repetition select no cycles.", "The repetition divides the cluster's cycles, and the base is below it."],
  6: ["BadSlot", "The cluster has no such static slot.", "Slots count from 1."],
  7: ["BadChannel", "There is no such channel in this cluster.", ""],
  8: ["BadSignal", "The signal's length or order is not allowed.", "A length is 1 to 64 bits, an order little or big."],
  9: ["LabelUsed", "The label is kept with another file or variant.", "Choose a new label."],
  10: ["NoVariant", "There is no such variant.", "Load the list of variants again."],
  11: ["Released", "The variant is released and never changes.", "Work goes on in a variant that is opened from it."],
  12: ["NotReleased", "The parent is not released.", "Release it first, or open the variant empty."],
  13: ["TooDeep", "The parent has depth 16, which is the most.", "Tick flat: then it opens without a parent."],
  14: ["NoSupplier", "There is no such supplier.", ""],
  15: ["NoNode", "The supplier has no such node.", "The integrator adds nodes."],
  16: ["NoFrame", "There is no such frame in the variant.", "It may have been dropped meanwhile."],
  17: ["NoSignal", "The frame has no such signal.", ""],
  18: ["NoPlacement", "The frame has no placement with exactly these fields.", "It may have been taken back meanwhile."],
  19: ["Exists", "What would be added is there already.", "Choose another name."],
  20: ["NodeDiffers", "Another node of the same supplier has it.", ""],
  21: ["NotGranted", "The lane is not granted to the frame's node.", "AB needs the grants of both channels. The integrator grants lanes."],
  22: ["InUse", "A placement of the supplier uses the lane.", "Its supplier has to take the placement back first."],
  23: ["Limit", "There would be one too many.", "The most are 256 frames a supplier and variant, 8 placements and 64 signals a frame, "
    + "512 rows or 65,536 bytes a file, 64 nodes a supplier, 64 suppliers and 64 variants."],
  24: ["Taken", "Another supplier holds the lane.", "Grant another one, or revoke that grant first."],
  25: ["CellTaken", "A cell of the placement is filled.", "Choose a base and a repetition that share no cycle with it, or another slot."],
  26: ["OutOfPayload", "A bit of the signal lies past the payload.", ""],
  27: ["BitTaken", "A bit of the signal is used by another signal.", ""],
  28: ["Unavailable", "The register's memory, disk or file failed.",
    "Nothing was changed, unless the disk failed. Read the plan again before you repeat it."],
  29: ["BadRow", "A row of the file is refused, and nothing of it was carried out.", ""],
  30: ["BadKey", "The key does not have the form of a key.", "8 to 64 letters and digits."],
  31: ["KeyTaken", "Somebody has this key already.", "Choose another one."],
  32: ["NoRoom", "No placement is left for the wish.", "A greater repetition, or a slot more, may help."],
};

export const nameOfRefusal = number => REFUSALS[number]?.[0];

const NAMED = /^[A-Za-z][A-Za-z0-9_]{0,31}$/;
const isCount = value => Number.isInteger(value) && value >= 0;

// Whether an answer has the form of a refusal, with its own number and name.
export function isRefusal(answer) {
  if (answer === null || typeof answer !== "object" || !isCount(answer.no) || nameOfRefusal(answer.no) !== answer.refused) return false;
  if (answer.no === 25) return isCount(answer.cycle) && /^[AB]$/.test(answer.channel) && NAMED.test(answer.frame);
  if (answer.no === 27) return isCount(answer.bit) && NAMED.test(answer.signal);
  if (answer.no === 29) return isCount(answer.line) && answer.row?.no !== 29 && isRefusal(answer.row);
  return true;
}

// A refusal as sentences, with its name and number.
export function explained(answer) {
  const [name, meaning, advice] = REFUSALS[answer.no];
  let what = meaning;
  if (answer.no === 25) what = `In cycle ${answer.cycle} on channel ${answer.channel} the frame ${answer.frame} is sent already.`;
  if (answer.no === 27) what = `Bit ${answer.bit} is used by the signal ${answer.signal}.`;
  if (answer.no === 29) {
    what = `Line ${answer.line} of the file, where the header is line 1: ${explained(answer.row)} Nothing of the file was carried out.`;
  }
  return `${name} (${answer.no}). ${what}${advice ? " " + advice : ""}`;
}
