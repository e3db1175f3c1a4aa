"""Every function once, over the library, and the graphs of the gallery against their listings."""
import glob
import os
import re
import unittest

import ttda
from ttda import Activity, Answer, Cell, Input, Instruction, RangeCell, RangeInput, RangeToken, Step, Token

ROOT = os.path.join(os.path.dirname(os.path.abspath(__file__)), '..', '..')
GRAPH = [Instruction('ADD', [(1, 0)]), Instruction('OUT')]
INPUTS = [Input(0, 0, 7), Input(0, 1, -9)]
TEXT = 'completed 1 3 0\n0 0 0 0 7 spent\n0 0 0 1 -9 spent\n0 0 1 0 -2 live\n'


class Layout(unittest.TestCase):
    """Records, limits and operations are those of the C header."""

    def setUp(self):
        with open(os.path.join(ROOT, 'crates', 'abi', 'ttda.h'), encoding='utf-8') as header:
            self.text = header.read()
        self.numbers = {name: int(number) for name, number in re.findall(r'TTDA_(\w+) = (\d+)', self.text)}

    def test_records(self):
        names = dict(LOGGED='LOG', OLD_LOGGED='OLD_LOG', TERM='EXPRESSION')
        for name in ['INSTRUCTION', 'TOKEN', 'OLD_TOKEN', 'CELL', 'RANGE_TOKEN', 'RANGE_CELL', 'ARRAY', 'PICK', 'LOGGED', 'OLD_LOGGED', 'STEP', 'TERM']:
            self.assertEqual(getattr(ttda, name).size, self.numbers[names.get(name, name) + '_BYTES'], name)
        for name in ['MOST_RECORDS', 'MOST_CELLS']:
            self.assertEqual(getattr(ttda, name), self.numbers[name], name)
        room = f'({ttda.ANSWER_LINE} + {ttda.TOKEN_LINE} * (size_t)(tokens) + {ttda.CELL_LINE} * (size_t)(cells))'
        self.assertIn(room, self.text)

    def test_codes(self):
        for name, code in ttda._OPERATIONS.items():
            self.assertEqual(code, self.numbers[name], name)
        self.assertEqual(ttda._WITH_CONSTANT, self.numbers['WITH_CONSTANT'])
        for states, kind in [(ttda._TOKEN_STATES, 'TOKEN'), (ttda._CELL_STATES, 'CELL')]:
            for number, state in enumerate(states):
                self.assertEqual(number, self.numbers[f'{kind}_{state.upper()}'])
        for number, word in ttda._WORDS.items():
            self.assertEqual(number, self.numbers[word.upper()])


class Runs(unittest.TestCase):
    def test_answer_tokens_cells_and_text(self):
        done = ttda.run(GRAPH, INPUTS)
        self.assertEqual(done.answer, Answer('completed', 0, 1, 3, 0))
        self.assertEqual(done.tokens[2], Token(0, 0, 1, 0, -2, 'live'))
        self.assertEqual((done.listing, done.cells, done.text), (done.tokens, [], TEXT))

    def test_the_longest_lines_have_room(self):
        longest = ttda.TOKEN.pack(16 * b'\xff', 255, 255, 65535, -2 ** 31, 2)
        done = ttda.run(GRAPH, INPUTS)._replace(ledger=10 * longest, memory=b'', answer=Answer('completed', 0, 1, 10, 0))
        self.assertEqual([len(line) + 1 for line in done.text.splitlines()[1:]], 10 * [ttda.TOKEN_LINE])

    def test_bytes_are_taken_as_they_are(self):
        graph, inputs = ttda.graph_bytes(GRAPH), ttda.input_bytes(INPUTS)
        self.assertEqual((len(graph), len(inputs)), (2 * ttda.INSTRUCTION.size, 2 * ttda.TOKEN.size))
        self.assertEqual(ttda.run(graph, inputs, b'').text, TEXT)

    def test_a_typed_graph(self):
        done = ttda.run('a: ADD -> out\nout: OUT\ninput a.0 = 7\ninput a.1 = -9\n')
        self.assertEqual(done.text, TEXT)
        with self.assertRaisesRegex(ValueError, 'standard input:1:4'):
            ttda.run('a: MULL 3 -> b\n')

    def test_constants_cells_and_picks(self):
        graph = [Instruction('add', [(1, 1)], 5), Instruction('STORE')]
        inputs = [Input(0, 0, 2), Input(1, 0, 3)]
        self.assertEqual(ttda.run(graph, inputs, [1, 65535]).cells, [Cell(3, 'present', 7)])
        waiting = ttda.run([Instruction('FETCH', [(1, 0)]), Instruction('OUT')], [Input(0, 0, 4)])
        self.assertEqual((waiting.answer.word, waiting.cells), ('hung', [Cell(4, 'waiting', 0)]))

    def test_named_arrays(self):
        graph = [Instruction('FETCH', [(1, 0)], 2), Instruction('OUT'), Instruction('STORE', [], 1)]
        inputs, arrays = [Input(0, 0, 1), Input(2, 0, 3), Input(2, 1, 40)], [(5, 4), (7, 2)]
        done = ttda.run(graph, inputs, arrays=arrays)
        self.assertEqual((done.answer.word, done.cells), ('completed', [Cell(7, 'present', 40)]))
        self.assertEqual(ttda.run(graph, inputs).answer, Answer('refused', 22, 0, 0, 0))
        self.assertEqual(ttda.run(graph, inputs, arrays=[(5, 2), (7, 2)]).answer.refusal, 10)
        logged, log = ttda.run_logged(graph, inputs, arrays=arrays)
        self.assertEqual((logged, ttda.replay(graph, log, inputs, arrays=arrays)), (done, done))
        self.assertEqual(ttda.profile(graph, inputs, arrays=arrays)[1], [Step(2, 1)])
        cut = ttda.run(graph, inputs, budget=1, arrays=arrays)
        self.assertEqual(ttda.carry_on(graph, cut, arrays=arrays), done)
        self.assertEqual(ttda.bounds(graph, inputs).word, 'completed')

    def test_a_typed_graph_has_its_arrays(self):
        text = 'array a = 3\narray b = 2\nr: FETCH b -> out\nout: OUT\nb[2] = 7\ninput r = 2\n'
        self.assertEqual(ttda.assembled(text).arrays, ttda.array_bytes([(0, 3), (3, 2)]))
        done = ttda.run(text)
        self.assertEqual((done.answer.word, done.cells), ('completed', [Cell(4, 'present', 7)]))
        self.assertEqual(ttda.run(text, arrays=[(0, 3), (9, 2)]).cells, [Cell(10, 'present', 7)])

    def test_a_bound_holds_loops_back(self):
        text = 'a: NEXT -> b\nb: NEXT -> out\nout: OUT\ngate: GATE -> out\ninput a = 5\ninput gate = 1\n'
        self.assertEqual(ttda.run(text).answer, Answer('hung', 0, 2, 4, 0))
        held = ttda.run(text, bound=2)
        self.assertEqual(held.answer, Answer('hung', 0, 1, 3, 0))
        self.assertEqual(ttda.run_logged(text, bound=2)[0], held)
        self.assertEqual(ttda.carry_on(text, held, bound=2), held)
        self.assertEqual(ttda.carry_on(text, held).answer.firings, 2)
        self.assertEqual(ttda.run(text, bound=1).answer, Answer('refused', 21, 0, 0, 0))

    def test_inputs_between_limits(self):
        done = ttda.run_ranges(GRAPH, [RangeInput(0, 0, 7, 8), RangeInput(0, 1, -9, -5)])
        self.assertEqual((done.answer, done.cells), (Answer('completed', 0, 1, 3, 0), []))
        self.assertEqual(done.tokens[2], RangeToken(0, 0, 1, 0, -2, 3, 'live'))
        store = [Instruction('STORE')]
        self.assertEqual(ttda.run_ranges(store, [RangeInput(0, 0, 3, 3), RangeInput(0, 1, 1, 4)]).cells, [RangeCell(3, 'present', 1, 4)])
        self.assertEqual(ttda.run_ranges(store, [RangeInput(0, 0, 3, 4), RangeInput(0, 1, 1, 4)]).answer, Answer('refused', 23, 0, 2, 0))
        self.assertEqual(ttda.run_ranges(GRAPH, [RangeInput(0, 0, 8, 7)]).answer, Answer('refused', 23, 0, 0, 0))

    def test_refusals(self):
        self.assertEqual(ttda.run(b'').answer, Answer('refused', 1, 0, 0, 0))
        self.assertEqual(ttda.run(GRAPH, INPUTS, capacity=2).answer, Answer('refused', 8, 0, 2, 0))
        with self.assertRaises(ValueError):
            ttda.run(GRAPH, INPUTS, budget=65536)

    def test_carrying_on(self):
        cut = ttda.run(GRAPH, INPUTS, budget=0)
        self.assertEqual(cut.answer.word, 'spent')
        self.assertEqual(ttda.carry_on(GRAPH, cut).text, TEXT)
        damaged = cut._replace(answer=cut.answer._replace(firings=1))
        self.assertEqual(ttda.carry_on(GRAPH, damaged).answer.refusal, 24)

    def test_a_log(self):
        done, log = ttda.run_logged(GRAPH, INPUTS)
        self.assertEqual(ttda.activities(log), [Activity(0, 0, 0)])
        self.assertEqual(ttda.replay(GRAPH, log, INPUTS), done)
        self.assertEqual(ttda.replay(GRAPH, log + log, INPUTS).answer.refusal, 20)

    def test_a_profile_and_bounds(self):
        done, steps = ttda.profile(GRAPH, INPUTS)
        self.assertEqual((done.text, steps), (TEXT, [Step(1, 1)]))
        self.assertEqual(ttda.profile(GRAPH, INPUTS, steps=0)[0].answer.refusal, 18)
        self.assertEqual(ttda.bounds(GRAPH, INPUTS), Answer('completed', 0, 1, 3, 0))

    def test_expressions(self):
        difference = b''.join(ttda.TERM.pack(*term) for term in [(0, 0, 0), (0, 0, 0), (17, 0, 1)])
        answer, graph = ttda.expression_graph(difference)
        self.assertEqual((answer.firings, len(graph)), (4, 64))
        self.assertEqual(ttda.expression_value(difference, [5, 12])[1], -7)
        self.assertEqual(ttda.expression_value(difference, [5])[0].refusal, 7)

    def test_a_kept_run_serves_another_order(self):
        graph = ttda.graph_bytes([ttda.Instruction('ADD', [(1, 0)]), ttda.Instruction('OUT', [])])
        kept = ttda.Request(graph, ttda.input_bytes([Input(0, 0, 7), Input(0, 1, -9)]))
        answer = ttda.run(kept.graph, kept.inputs).answer
        self.assertTrue(ttda.serves(kept, answer, kept._replace(picks=ttda.pick_bytes([5]))))
        for other in [dict(budget=0), dict(capacity=100), dict(cells=8), dict(picks=b'\0'), dict(inputs=b''), dict(bound=2)]:
            self.assertFalse(ttda.serves(kept, answer, kept._replace(**other)), other)

    def test_which_hang_it_was(self):
        # A loop 0 to 1 and back, and a STORE whose value never comes: a bound of 2 holds the NEXT of iteration 1.
        graph = ttda.graph_bytes([ttda.Instruction('NEXT', [(1, 0)]), ttda.Instruction('COPY', [(0, 0)]), ttda.Instruction('STORE', [])])
        kept = ttda.Request(graph, ttda.input_bytes([Input(0, 0, 1), Input(2, 0, 0)]), bound=2)
        done = ttda.run(kept.graph, kept.inputs, bound=2)
        self.assertEqual(done.answer.word, 'hung')
        self.assertEqual(ttda.held(graph, done, 2), ttda.Held(1, 1))
        self.assertEqual(ttda.held(graph, done, 0), ttda.Held(0, 1))
        self.assertEqual(ttda.held(graph, done, 1).refusal, 21)
        self.assertTrue(ttda.serves(kept, done.answer, kept, 1))
        self.assertFalse(ttda.serves(kept, done.answer, kept._replace(bound=0), 1))
        self.assertTrue(ttda.serves(kept, done.answer, kept._replace(bound=0), 0))

    def test_old_records(self):
        old = bytes(12) + b'\7\0\0\0' + bytes(4)
        self.assertEqual(ttda.converted(old), ttda.input_bytes([Input(0, 0, 7)]))
        with self.assertRaises(ValueError):
            ttda.converted(old[:19])
        self.assertEqual(ttda.converted_log(b'\7' + bytes(11)), b'\7' + bytes(19))
        with self.assertRaises(ValueError):
            ttda.converted_log(bytes(13))


class Gallery(unittest.TestCase):
    def test_every_graph_has_its_listing(self):
        files = glob.glob(os.path.join(ROOT, 'examples', '*', '*.ttda'))
        self.assertGreater(len(files), 40)
        for file in files:
            with open(file, encoding='utf-8') as text, open(os.path.join(os.path.dirname(file), 'expected'), encoding='ascii') as due:
                self.assertEqual(ttda.run(text.read()).text, due.read(), file)


if __name__ == '__main__':
    unittest.main()
