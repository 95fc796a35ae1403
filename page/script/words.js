// Numbers, places and lists as words.

export const grouped = number => String(number).replace(/\B(?=(\d{3})+$)/g, ",");
export const plural = (number, one, many = one + "s") => `${grouped(number)} ${number === 1 ? one : many}`;
export const short = value => String(value).slice(0, 80);

export const cyclesText = ({base, repetition}) => `${base}/${repetition}`;
export const shortPlaceText = ({slot, channels, base, repetition}) => `${slot} ${channels} ${base}/${repetition}`;
export const placeText = placement => "slot " + shortPlaceText(placement);
export const longPlaceText = ({slot, channels, base, repetition}) => `slot ${slot} ${channels}, base ${base}, repetition ${repetition}`;
export const bitsText = ({name, start, length, order}) => `${name}: ${plural(length, "bit")} from bit ${start}, ${order}`;

// The first texts of a list, and how many more there are.
export const firstOf = (texts, most) => texts.slice(0, most).join(", ") + (texts.length > most ? ` and ${grouped(texts.length - most)} more` : "");

export const byText = (one, other) => one < other ? -1 : one > other ? 1 : 0;
