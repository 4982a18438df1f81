// The words of the refusals. The numbers are the library's.

const WORDS = {
  1: 'a count or its section is cut short',
  2: 'a count is outside its limits',
  3: 'a tag is not A to Z or is repeated',
  4: 'a ceiling is 0 or above 1,001',
  5: 'a location byte is above 1',
  6: "a rule's first seven bytes break the rules of the file",
  7: "a rule's bounds break the rules of the file: a low above its high or above the ceiling, or a high not below the ceiling",
  8: 'bytes are left over',
  9: 'there are more than 65,536 states',
  10: 'the mark slice is shorter than the number of states',
  11: 'the policy is hopeless: from the start no permitted stream goes on for ever and comes to rest again and again',
  12: 'the policies differ in signal tags or their order',
  13: 'a join has over 64 locations, 4 clocks, 256 rules or 65,536 states',
  14: 'the slice to be written is too short',
  15: 'an event has a signal on that the policy does not name',
  16: 'a state is out of range or its mark is not 1',
  17: 'no input, or for this input no output, leads to a live state',
  18: 'the tick length is 0',
  19: 'the tick count is above 1,000',
  20: 'the marks are not those of this policy under this reading',
  21: 'the text is not a wave of this policy, or holds a time above 16,384',
  22: 'the reading is neither 1 nor 2',
  23: 'a work slice has fewer entries than there are states',
  24: 'there is no such bay',
  25: 'a list of bays has 1 to 8 of them',
  26: 'the policy has no input P or no output D, so it has no meter',
  27: 'a total would pass 4,294,967,295',
  28: 'the index is not that of the policy',
  29: 'a wave has at most 16,384 events',
  30: 'a line or a word is not of the form, or comes in the wrong place',
  31: 'a name or letter is taken, unknown, or said twice in one rule',
  32: 'a number is above 65,535',
  33: 'there are more of these than a file has room for',
  34: 'this location stands before the one named last: give the rules in the order of the locations',
  35: 'there is none of this number',
};

/** What there is to do where a text has no line to mark. */
const ADVICE = {
  2: 'a policy needs at least one location: write a line such as "location start"',
  9: 'choose smaller ceilings, longer ticks or fewer clocks',
};

export const refusalWords = (number) => WORDS[number] ?? 'a refusal of another version';

/** A refusal of a text: its number, its words, and what to do. */
export function refusalSentence(number) {
  const advice = ADVICE[number];
  return `refused ${number}: ${refusalWords(number)}${advice ? `; ${advice}` : ''}`;
}
