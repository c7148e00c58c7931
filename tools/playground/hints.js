// ---- what a refusal means, and what to do

const HINTS = {
  'bad byte': 'Nothing begins so. Names have ASCII letters, digits and _; a comment begins with ||.',
  'bad number': 'The number does not fit into 64 bits, or a letter follows its last digit.',
  'long name': 'A name has at most 64 letters.',
  'unexpected': 'No instruction reads on like this. Is there one instruction a line, each name before a colon or an '
    + 'arrow, and one operator at most on a right side?',
  'text ends inside a unit': 'The last unit has no line `end`.',
  'no unit': 'A program has at least one unit: a line `main: begin`, its instructions, and a line `end`.',
  'too many units': 'Take some units out: there are more than a program may have.',
  'unit named twice': 'An earlier unit has this name already.',
  'too many instructions': 'This unit is too long: a unit has at most 16384 instructions.',
  'late receive': 'Receives stand first in their unit, before any other instruction and any label.',
  'variable received twice': 'An earlier receive of this unit names this variable already.',
  'too many receives': 'A unit receives at most 16 variables.',
  'label named twice': 'An earlier label of this unit has this name already.',
  'no such label': 'This unit has no label of the name behind `goto`.',
  'no such unit': 'No unit has the name behind `call`.',
  'wrong number of arguments': 'The unit that is called has another number of receives.',
  'global named twice': 'An earlier line declares this global already.',
  'too many globals': 'There are at most 64 globals.',
  'global received': 'This name is a global, which no receive may name.',
  'bad trap number': 'The number of a trap is 0 to 255.',
  'text longer than 1048576 bytes': 'The text is longer than the program reads.',
};

// A refusal out of the line that the program tells: its message, the line that it names or 0, what it says, and a hint.
function refusalOf(told) {
  const message = told.trim(), match = message.match(/^line (\d+): (.*)$/), what = match ? match[2] : message;
  const hint = what.startsWith('stopped after') ? 'A shorter program is answered sooner.' : HINTS[what] ?? '';
  return { message, line: match ? Number(match[1]) : 0, what, hint };
}
