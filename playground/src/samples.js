// Samples: a transfer station, clauses that are joined, the pacemaker's policies, the five of the scope, and the ten patterns of
// docs/WRITING-POLICIES.md, which stand in the script as PATTERNS.

const station = `# A transfer station: a card, a credit within 30 s of it
# (300 ticks), then water. A stale credit never passes.
input  A card        # a card is accepted
input  K credit      # a credit pulse of the card reader
input  P pulse       # set by the meter
output D delivery    # the valve; what flows then is billed
clock  age 301       # ticks of 100 ms since the card
location idle
location armed
location transfer must be left   # it can be ended

at idle
  credit              -> violation
  delivery            -> violation
  card                -> armed reset age
  any                 -> idle
at armed
  delivery            -> violation
  credit age <= 300   -> transfer
  credit age >= 301   -> violation
  card                -> armed reset age
  age >= 301          -> idle
  any                 -> armed
at transfer
  credit age >= 301   -> violation
  delivery            -> transfer
  any                 -> idle
`;

const stationEvents = `@65500           # the meter's register at first
card
- * 3
credit
delivery @+6 * 5
delivery @4      # 65530, then 4: it rolled over, 10 pulses
delivery @+5 * 300
credit delivery @+5   # a stale credit: the card is too old
delivery @+5 * 2
- @+3            # the valve is shut, three pulses run on
delivery         # no card, no credit
`;

const S = `# S: never A with B, never B with R
input  A
input  B
output R
location all

at all
  A B -> violation
  B R -> violation
  any -> all
`;

const D = `# D: after R, C at latest on the fourth tick
input  R request
output C answer
clock  age 3
location quiet
location due

at quiet
  request         -> due reset age
  any             -> quiet reset age
at due
  answer          -> quiet reset age
  !answer age <= 2 -> due
`;

const T = `# T: after A nothing is permitted any more, so A never passes
input  A
output B
location open
location shut

at open
  A   -> shut
  any -> open
`;

const K = `# K: credit K only while the clock is at most 2
output K credit
clock  age 3
location all

at all
  credit age >= 3 -> violation
  any             -> all
`;

const N = `# N: no rule at all. Nothing is permitted: the policy is hopeless
location all
`;

const heart = `input  A as   # atrium, sensed
input  V vs   # ventricle, sensed
output P ap   # atrium, paced
output Q vp   # ventricle, paced
`;

/** P1 to P5 of the source on pacemakers, with their times in ticks: deadlines rounded down, the least distance up. */
const pacemaker = ({ avi, aei, uri, lri }) => [
  `# P1: ap and vp never at once
${heart}location all

at all
  ap vp -> violation
  any   -> all
`,
  `# P2: vs or vp within AVI after as or ap (150 ms, ${avi} ticks)
${heart}clock avi ${avi - 1}
location rest
location wait

at rest
  !as !ap  -> rest
  any      -> wait reset avi
at wait
  vs       -> rest
  vp       -> rest
  avi <= ${avi - 2} -> wait
`,
  `# P3: as or ap within AEI after vs or vp (850 ms, ${aei} ticks)
${heart}clock aei ${aei - 1}
location rest
location wait

at rest
  !vs !vp  -> rest
  any      -> wait reset aei
at wait
  as       -> rest
  ap       -> rest
  aei <= ${aei - 2} -> wait
`,
  `# P4: after vs or vp another one only after URI (400 ms, ${uri} ticks)
${heart}clock uri ${uri}
location first
location later

at first
  !vs !vp  -> first
  any      -> later reset uri
at later
  !vs !vp  -> later
  uri >= ${uri} -> later reset uri
`,
  `# P5: after vs or vp another one within LRI (1000 ms, ${lri} ticks)
${heart}clock lri ${lri - 1}
location first
location later

at first
  !vs !vp  -> first
  any      -> later reset lri
at later
  vs       -> later reset lri
  vp       -> later reset lri
  lri <= ${lri - 2} -> later
`,
];

const FIFTY = { avi: 3, aei: 17, uri: 8, lri: 20 };
const SEVENTY_FIVE = { avi: 2, aei: 11, uri: 6, lri: 13 };

const heartEvents = `as
- * 4
ap vp
- * 16
vs
- * 2
vs          # too soon after the last
- * 16
`;

const signals = `input  C credit
input  S stop
input  A arm
output V valve
output L alarm
`;

const clauses = [
  `# Interlock: never the valve while stop is on, or without the arm
${signals}location all

at all
  stop valve -> violation
  valve !arm -> violation
  any        -> all
`,
  `# Alarm: within 3 ticks after a stop
${signals}clock age 2
location quiet
location due

at quiet
  stop !alarm -> due reset age
  any         -> quiet
at due
  alarm       -> quiet
  age <= 1    -> due
`,
  `# Credit: the valve only within 5 ticks after one
${signals}clock since 5
location none
location credited

at none
  valve            -> violation
  credit           -> credited reset since
  any              -> none
at credited
  valve since >= 5 -> violation
  credit           -> credited reset since
  any              -> credited
`,
];

const leak = `# "No pulses while the valve is shut": the obvious rule opens the valve.
# The input is decided first, and stands if some output saves it.
input  P pulse
output V valve
location all

at all
  pulse !valve -> violation
  any          -> all
`;

const jammed = `# What is begun can be ended; but here is a slip. Turning the key while the
# valve is open leads to a location without a way out.
input  K key
output V valve
location shut
location open must be left
location jammed must be left
location spare

at shut
  valve -> open
  any   -> shut
at open
  key   -> jammed
  valve -> open
  any   -> shut
at jammed
  any   -> jammed
`;

const hammer = `# Once open, the valve stays open for 3 ticks, unless stopped
input  S stop
output V valve
clock  held 2
location shut
location open

at shut
  stop valve -> violation
  valve      -> open reset held
  any        -> shut
at open
  stop valve -> violation
  stop       -> shut          # before the minimum, so that the stop wins
  valve      -> open
  held <= 1  -> violation
  any        -> shut
`;

/** As many states as there may be: 64 locations and two clocks of 32 values each. */
function largest() {
  const names = Array.from({ length: 64 }, (_, i) => `l${i}`);
  const rules = names.map((name, i) => `at ${name}\n  A t <= 30 -> ${names[(i + 1) % 64]} reset t\n  !A u <= 30 -> ${names[(i + 7) % 64]} reset u\n  B -> l0 reset t u\n`);
  return `# The largest: 64 locations, two clocks, 65,536 states\ninput A\noutput B\nclock t 31\nclock u 31\n${names.map((name) => `location ${name}\n`).join('')}\n${rules.join('')}`;
}

const one = (group, name, text, events, reading = '1') => ({ group, name, clauses: [text], events, reading });

export const SAMPLES = [
  one('A station', 'Transfer station with a meter', station, stationEvents),
  one('A station', 'Valve that stays open for 3 ticks', hammer, 'valve\n- * 3\nvalve\nstop valve\nvalve * 2\n- * 2\n', 'both'),
  one('A station', 'The rule that opens the valve', leak, '-\npulse\nvalve\npulse valve\npulse\n-\n'),
  one('A station', 'A slip: no way out', jammed, 'valve\nkey valve\nvalve\nkey\n-\nkey\n'),
  { group: 'Joined', name: 'Three clauses, joined', clauses, events: 'credit arm\nvalve arm\nstop valve arm\n- * 4\nvalve arm\ncredit arm\nvalve\n', reading: '1' },
  { group: 'Joined', name: 'Pacemaker, P1 to P5 (ticks of 75 ms)', clauses: pacemaker(SEVENTY_FIVE), events: heartEvents, reading: '1' },
  { group: 'Joined', name: 'Pacemaker, P1 to P4 (ticks of 50 ms)', clauses: pacemaker(FIFTY).slice(0, 4), events: heartEvents, reading: '1' },
  ...PATTERNS.map(({ name, text, events, reading }) => one('Ten patterns', name, text, events, reading)),
  one('Of the scope', 'S: never A with B, never B with R', S, 'A B\nB R\nA B R\nA R\n'),
  one('Of the scope', 'D: an answer in time', D, 'request\n- * 4\n', 'both'),
  one('Of the scope', 'T: a permitted event without a future', T, 'A\nA B\n'),
  one('Of the scope', 'K: a credit that grows old', K, '- * 3\ncredit\n- * 65537\ncredit\n'),
  one('Of the scope', 'N: hopeless', N, ''),
  one('Of the scope', 'The largest: 65,536 states', largest(), 'A\n- * 40\nA B\n'),
];
