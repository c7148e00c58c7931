"""Tests of what the page of tables says of wanted bits: numbers, chains, and why a node goes; beside words that were
written by hand, and of what `mir_tables` writes beside what the page finds by itself. Nothing is shown; it runs in node."""

import json
import random
import shutil
import unittest

import mir_cases
import mir_text
import tables_page
from page_tests import by_node
from tool_calls import EXAMPLES, GIVEN, ran

# A number is made a char by two shifts, as C does it, and then two bits of it are printed; `i` is read by itself alone.
CHAR = ('vars n t s c m b i', 'received n', [
    ('start 1', '64 0 0 0 0 0 0', 'start 1'),
    ('assign 2 t <- n + 256', '64 0 0 0 0 0 0', 'assign 2 t <- n'),
    ('assign 3 s <- t shl 56', '64 2 0 0 0 0 0', 'skip 3'),
    ('assign 4 c <- s shra 56', '64 2 0 0 0 0 0', 'assign 4 c <- t'),
    ('assign 5 m <- c and 255', '64 0 0 2 0 0 0', 'assign 5 m <- c'),
    ('assign 6 b <- m and 3', '64 0 0 0 2 0 0', 'assign 6 b <- m and 3'),
    ('assign 7 i <- i + 1', '64 0 0 0 0 64 0', 'skip 7'),
    ('test 9,8 if n = 0', '64 0 0 0 0 64 0', 'test 9,8 if n = 0'),
    ('print 9 print b', '64 0 0 0 0 64 0', 'print 9 print b'),
    ('return - return n', '64 0 0 0 0 0 0', 'return - return n')])

# Of x the lowest bit is wanted behind the loop, and one more in each turn before.
TURNS = ('vars x c y', 'received x c', [
    ('start 1', '64 64 0', 'start 1'),
    ('assign 2 x <- x shr 1', '64 64 0', 'assign 2 x <- x shr 1'),
    ('test 1,3 if c', '64 64 0', 'test 1,3 if c'),
    ('assign 4 y <- x and 1', '1 0 0', 'assign 4 y <- x and 1'),
    ('return - return y', '0 0 64', 'return - return y')])

# What the page says of some nodes: by a variable why bits of it are wanted before the node, and by none what becomes of it.
SAID = {
    (2, 't'): 'Before 2 the 2 lowest bits of t can matter, along 2→3→4→5→6→7→8: 3 makes of them the 2 lowest bits of c, 4 makes '
              'of them the 2 lowest bits of m, 5 makes of them the 2 lowest bits of b, and 8 needs them.',
    (3, 's'): 'Before 3 no bit of s can matter.',
    (6, 'b'): 'Before 6 all bits of b can matter: along 6→7→8 they come to 8, which needs them.',
    (8, 'b'): 'Before 8 all bits of b can matter: 8 itself needs them.',
    (1, None): 'It becomes t <- n. Its number leaves the 2 lowest bits of t as they are, and no other bit can matter behind it.',
    (2, None): 'It becomes skip. Behind it no bit of s can matter.',
    (3, None): 'It becomes c <- t. It shifts back what was shifted to the left: the 2 lowest bits of c are those of t.',
    (5, None): 'The node itself stays as it is.',
    (6, None): 'It becomes skip. Behind it no bit of i can matter.',
}

# Behind the scripts of a page that show nothing: whether links are a chain of the rules of the pass from a first one on; the
# passes by wanted bits; and where their numbers differ from those that the page finds.
SHARED = '''
const plain = html => html.replace(/<[^>]*>/g, '').replaceAll('&lt;', '<').replaceAll('&gt;', '>');
const isChain = (pass, chain, { n, v, k }) => {
  const { nodes, vars } = pass.before;
  return chain && chain[0].n === n && chain[0].v === v && chain[0].k === k && chain.every((link, at) => {
    const next = chain[at + 1], one = parsed(nodes[link.n]), x = vars[link.v];
    if (!next) return needsOf(pass, link.n, x) >= link.k;
    if (!nodes[link.n][1].includes(next.n)) return false;
    return next.v === link.v && next.k === link.k && !one.sets.includes(x)
      || one.kind === 'assign' && one.into === vars[next.v] && wantedOfRight(pass.before, link.n, next.k, x) >= link.k;
  });
};
const narrowing = () => UNITS.flatMap(passesOf).filter(pass => pass.facts.wanted);
const differing = pass => {
  delete columnsOf(pass, 0).checked;
  return disagreeing(pass, 0).found;
};
'''

# Of one text: what is said of the nodes, and how many links the chain of a variable before a node has, with its last one.
WORDS = SHARED + '''
takeProgram(DATA);
const [pass] = narrowing(), { vars } = pass.before, columns = columnsOf(pass, 0);
const said = DATA.asked.map(([n, name]) => plain((name === null ? columns.at(-1) : columns[vars.indexOf(name)]).why(n).html));
const { chain } = whyWanted(pass, 1, 0), first = { n: 1, v: 0, k: pass.facts.wanted[1][0] };
const found = [said, differing(pass), chain.length, chain.at(-1), isChain(pass, chain, first)];
pass.facts.wanted[3][0]++;
console.log(JSON.stringify([...found, differing(pass)]));
'''

# Of many texts by their names: how many numbers there are, the units in which some differ; how many are not 0, and those with
# no chain; and of how many numbers that were turned one by one, another one for each graph, how many are not told.
CHAINS = SHARED + '''
const apart = [], wrong = [];
let numbers = 0, chains = 0, turned = 0, missed = 0;
for (const [name, text] of Object.entries(DATA)) {
  takeProgram({ text, name });
  for (const pass of narrowing()) {
    const { before: { vars }, facts: { wanted } } = pass, of = [name, unitOfPass(pass).name];
    if (differing(pass).length) apart.push([...of, differing(pass).slice(0, 3)]);
    wanted.forEach((row, n) => row.forEach((k, v) => {
      numbers++;
      const { chain, path } = whyWanted(pass, n, v);
      if (!k) return;
      chains++;
      if (!isChain(pass, chain, { n, v, k }) || path && path.some((m, at) => m !== chain[at].n)) wrong.push([...of, n, vars[v], k]);
    }));
    for (const column of columnsOf(pass, 0)) wanted.forEach((_, n) => column.why(n));
    if (!vars.length || wanted.length > 160) continue;
    const n = (7 * ++turned) % wanted.length, v = turned % vars.length, k = wanted[n][v];
    wanted[n][v] = (k + 1) % 65;
    if (!differing(pass).some(([x, m]) => x === vars[v] && m === n)) missed++;
    wanted[n][v] = k;
  }
}
console.log(JSON.stringify({ numbers, apart: apart.slice(0, 9), chains, wrong: wrong.slice(0, 9), turned, missed }));
'''


def text_of(variables: str, received: str, nodes: list[tuple[str, str, str]]) -> str:
    """The tables of a unit whose nodes are these, with what is wanted before each and what it becomes."""
    def stage(name: str, texts: list[str]) -> list[str]:
        return [f'stage {name}', 'globals 0', variables, received, *(f'node {n} {text}' for n, text in enumerate(texts))]
    before, wanted, after = zip(*nodes)
    lines = ['tables 1 wanted', 'unit main', *stage('lower', before), 'pass clean', *stage('clean', before), 'pass wanted',
             *(f'wanted {n} {bits}' for n, bits in enumerate(wanted)), *stage('wanted', after)]
    return '\n'.join(lines) + '\n'


class Narrow(mir_cases.Drawer):
    """Draws programs full of shifts and masks."""

    def __init__(self, number: int):
        super().__init__(number)
        draw = random.Random(number)
        names, far = mir_cases.NAMES, (56, 48, 8, 1, -8, 120, 63, 64)
        masks = (255, 1, 65535, -1, 0, 256, -256)
        sides = [f'{draw.choice(names)} {draw.choice(("shl", "shl", "shr", "shra"))} {draw.choice(far)}' for _ in range(6)]
        sides += [f'{draw.choice(names)} {draw.choice(("and", "or", "xor", "+"))} {draw.choice(masks)}' for _ in range(4)]
        sides += [f'{draw.choice(masks)} and {draw.choice(names)}', f'{draw.choice(names)} shl {draw.choice(names)}',
                  f'! {draw.choice(names)}', f'- {draw.choice(names)}', f'{draw.choice(names)} * {draw.choice(names)}',
                  f'{draw.choice(names)} < {draw.choice(names)}', f'{draw.choice(names)} mod {draw.choice(names)}']
        self.sides = sides


@unittest.skipUnless(shutil.which('node'), 'node is not here')
class Bits(unittest.TestCase):
    """Wanted bits on the page of tables."""

    DRAWN = 150

    def told_of(self, table: tuple, asked: list) -> list:
        """What the page says of the nodes that are asked for, of a table, and of the chain of its first variable."""
        return by_node(tables_page.MODEL, json.dumps({'text': text_of(*table), 'name': 'main', 'asked': asked}), WORDS)

    def test_words(self):
        """What is said of the example is what was written here by hand, and a number that is turned is told."""
        said, apart, _, _, is_chain, turned = self.told_of(CHAR, list(SAID))
        self.assertEqual(said, list(SAID.values()))
        self.assertEqual((apart, is_chain, turned), ([], True, [['n', 3]]))

    def test_a_chain_turns_in_a_loop(self):
        """A chain turns in a loop as often as bits come down: 63 times, and behind the loop to what is returned."""
        said, apart, links, last, is_chain, turned = self.told_of(TURNS, [(1, 'c'), (3, 'x')])
        self.assertEqual(said, ['Before 1 all bits of c can matter: along 1→2 they come to 2, which needs them.',
                                'Before 3 the lowest bit of x can matter, along 3→4: 3 makes of it the lowest bit of y, and 4 '
                                'needs it.'])
        self.assertEqual((apart, links, last, is_chain), ([], 128, {'n': 4, 'v': 2, 'k': 1}, True))
        self.assertEqual(turned, [['x', 3]])

    def test_numbers_have_chains(self):
        """On each example and on drawn programs each number is what the page finds by the rules, and has a chain that they
        allow; and a number that is turned is told."""
        if not GIVEN.tables:
            self.skipTest('there is no mir_tables: --tables names one')
        texts = {path.stem: mir_text.read_input(str(path)) for path in EXAMPLES}
        for number in range(self.DRAWN // (5 if GIVEN.few else 1)):
            texts[f'drawn {number}'] = mir_cases.drawn_program(number)
            texts[f'narrow {number}'] = Narrow(number).program()
        data = {f'{word} {name}': ran([GIVEN.tables, word], text).stdout.decode('latin-1')
                for word in ('wanted', 'demanded') for name, text in texts.items()}
        found = by_node(tables_page.MODEL, json.dumps(data), CHAINS)
        self.assertEqual((found['apart'], found['wrong'], found['missed']), ([], [], 0))
        self.assertGreater(min(found['numbers'], found['chains']), 1000)
        self.assertGreater(found['turned'], 50)
