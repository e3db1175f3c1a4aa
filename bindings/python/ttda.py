"""The proved engine of the MIT tagged-token dataflow machine.

    import ttda
    done = ttda.run(open('sum.ttda').read())
    print(done.answer, done.cells)

Every firing is the engine's, in the shared library libttda.so; what is here lends buffers and reads records. A graph is bytes as
docs/FORMATS.md has them, a list of Instruction, or the text of a typed graph, which the program dayomlak assembles. Nothing but
Python's own library is used.
"""
import ctypes
import os
import shutil
import struct
import subprocess
import tempfile
from typing import List, NamedTuple, Optional, Tuple

# The most records of a ledger, and the most cells. No run exceeds a budget of MOST_RECORDS, for firings never exceed tokens.
MOST_RECORDS = 2048
MOST_CELLS = 1024

# The records. A path has 16 bytes, and had 8 before calls nested eight levels deep.
INSTRUCTION = struct.Struct('<4B2Hi4x')
TOKEN = struct.Struct('<16s2BHiB3x')
OLD_TOKEN = struct.Struct('<8s2BHiB3x')
CELL = struct.Struct('<iB3x')
RANGE_TOKEN = struct.Struct('<16s2BHiB3xi')
RANGE_CELL = struct.Struct('<iB3xi')
ARRAY = struct.Struct('<2H')
PICK = struct.Struct('<H')
LOGGED = struct.Struct('<16sBxH')
OLD_LOGGED = struct.Struct('<8sBxH')
STEP = struct.Struct('<2H')
TERM = struct.Struct('<3B5x')
ROOT = bytes(16)

# The bytes of the longest printed answer, token and cell.
ANSWER_LINE = 74
TOKEN_LINE = 75
CELL_LINE = 46

_OPERATIONS = dict(COPY=1, SINK=2, OUT=3, CONST=4, SWITCH=5, GATE=6, NEXT=7, ENTER=8, LEAVE=9, FETCH=10, STORE=11,
                   ADD=16, SUB=17, MUL=18, DIV=19, REM=20, LT=21, LE=22, EQ=23)
_WITH_CONSTANT = 16
_TOKEN_STATES = ('live', 'spent', 'deferred')
_CELL_STATES = ('absent', 'waiting', 'present')
_WORDS = {0: 'completed', 100: 'spent', 101: 'hung'}


class Instruction(NamedTuple):
    """An operation by its name, arcs as pairs of instruction and port, and a constant: of CONST, LEAVE, the site of ENTER, the array of FETCH or STORE, or on the
    right of ADD to EQ, which then have one operand."""
    operation: str
    arcs: Tuple[Tuple[int, int], ...] = ()
    constant: Optional[int] = None


class Input(NamedTuple):
    """A value on a port of an instruction at the beginning."""
    instruction: int
    port: int
    value: int


class Answer(NamedTuple):
    """The word (completed, hung, spent or refused), the number of the refusal or 0, and the counts."""
    word: str
    refusal: int
    firings: int
    tokens: int
    place: int


class Token(NamedTuple):
    """A token. The value of a deferred one is the cell that it waits for."""
    path: int
    iteration: int
    instruction: int
    port: int
    value: int
    state: str


class Cell(NamedTuple):
    """A cell that is waiting or present. Absent ones are left out of lists."""
    number: int
    state: str
    value: int


class RangeInput(NamedTuple):
    """A value that is known only between limits, on a port of an instruction at the beginning."""
    instruction: int
    port: int
    low: int
    high: int


class RangeToken(NamedTuple):
    """A token of a range run. Both values of a deferred one are the cell that it waits for."""
    path: int
    iteration: int
    instruction: int
    port: int
    low: int
    high: int
    state: str


class RangeCell(NamedTuple):
    """A cell of a range run that is waiting or present."""
    number: int
    state: str
    low: int
    high: int


class RangeRun(NamedTuple):
    """What a range run answered and left, as `Run`."""
    answer: Answer
    ledger: bytes
    memory: bytes

    @property
    def tokens(self) -> List[RangeToken]:
        """The tokens in order of arrival."""
        return [RangeToken(int.from_bytes(path, 'little'), iteration, instruction, port, low, high, _TOKEN_STATES[min(state, 2)])
                for path, iteration, port, instruction, low, state, high in RANGE_TOKEN.iter_unpack(self.ledger)]

    @property
    def cells(self) -> List[RangeCell]:
        records = enumerate(RANGE_CELL.iter_unpack(self.memory))
        return [RangeCell(number, _CELL_STATES[state], low, high) for number, (low, state, high) in records if 0 < state < 3]


class Step(NamedTuple):
    """An ideal step: its firings, and the live plus deferred tokens after it."""
    firings: int
    tokens: int


class Activity(NamedTuple):
    """What a record of a log names."""
    path: int
    iteration: int
    instruction: int


class Run(NamedTuple):
    """What a run answered and left. Ledger (its used records) and memory (all cells) are bytes, for what goes on from here."""
    answer: Answer
    number: int
    ledger: bytes
    memory: bytes

    @property
    def tokens(self) -> List[Token]:
        """The tokens in order of arrival."""
        return _tokens(self.ledger)

    @property
    def listing(self) -> List[Token]:
        """The tokens in the order of the listing, which is the same in every firing order."""
        return _tokens(_listed(self.ledger))

    @property
    def cells(self) -> List[Cell]:
        records = enumerate(CELL.iter_unpack(self.memory))
        return [Cell(number, _CELL_STATES[state], value) for number, (value, state) in records if 0 < state < 3]

    @property
    def text(self) -> str:
        """The lines that the program ttda prints."""
        lines = ANSWER_LINE + TOKEN_LINE * self.answer.tokens + CELL_LINE * (len(self.memory) // CELL.size)
        room = ctypes.create_string_buffer(lines)
        length = _call('ttda_print', self.number, _listed(self.ledger), self.memory, room)
        return room.raw[:length].decode('ascii')


class Request(NamedTuple):
    """A run that is asked for, or one that was made: what `run` is given, graph, inputs, picks and arrays as bytes."""
    graph: bytes
    inputs: bytes = b''
    picks: bytes = b''
    budget: int = MOST_RECORDS
    capacity: int = MOST_RECORDS
    cells: int = MOST_CELLS
    arrays: bytes = b''
    bound: int = 0


class Held(NamedTuple):
    """How many activities a bound holds back in what a run left, and how many are enabled in all; or the number of the refusal."""
    held: int
    enabled: int
    refusal: int = 0


class Files(NamedTuple):
    """Graph, inputs, picks and arrays as bytes."""
    graph: bytes
    inputs: bytes
    picks: bytes
    arrays: bytes = b''


# The functions of ttda.h, with their parameters: r a buffer that is read, w one that is written, h a number of 16 bits, q one of 64,
# n a number that is written, l a record of limits.
_FUNCTIONS = {
    'ttda_run': 'rrrrhhww',
    'ttda_run_ranges': 'rrrrhhww',
    'ttda_carry_on': 'rrrhhhhww',
    'ttda_run_logged': 'rrrrhhwww',
    'ttda_replay': 'rrrrww',
    'ttda_profile': 'rrrwwwn',
    'ttda_bounds': 'rr',
    'ttda_expression': 'rw',
    'ttda_expression_value': 'rr',
    'ttda_list': 'rw',
    'ttda_convert': 'rw',
    'ttda_convert_log': 'rw',
    'ttda_held': 'rhhhrr',
    'ttda_serves': 'rrrrlqqrrrrl',
    'ttda_print': 'qrrw',
}
_TYPES = {
    'r': [ctypes.c_char_p, ctypes.c_size_t],
    'w': [ctypes.c_char_p, ctypes.c_size_t],
    'h': [ctypes.c_uint16],
    'q': [ctypes.c_uint64],
    'n': [ctypes.POINTER(ctypes.c_uint64)],
    'l': [ctypes.POINTER(ctypes.c_uint64)],
}
_HERE = os.path.dirname(os.path.abspath(__file__))
_library = None


def _first(what, variable, places):
    """The first of the places that is there; the variable of the environment comes before them."""
    named = os.environ.get(variable)
    for place in [named] if named else places:
        if place and os.path.exists(place):
            return place
    raise FileNotFoundError(f'{what} is not there; {variable} can name it')


def _load():
    """The library: the one that TTDA_LIBRARY names, that of the release, or the project's own."""
    places = [os.path.join(_HERE, '..', 'lib', 'libttda.so'), os.path.join(_HERE, '..', '..', 'target', 'shared', 'libttda.so')]
    library = ctypes.CDLL(_first('libttda.so, which tools/shared-library makes,', 'TTDA_LIBRARY', places))
    for name, parameters in _FUNCTIONS.items():
        function = getattr(library, name)
        function.argtypes = [kind for parameter in parameters for kind in _TYPES[parameter]]
        function.restype = ctypes.c_uint64
    return library


def _call(name, *arguments):
    """Calls a function; each buffer brings its length."""
    global _library
    if _library is None:
        _library = _load()
    words = []
    for parameter, argument in zip(_FUNCTIONS[name], arguments):
        if parameter in 'rw':
            words += [argument, len(argument)]
        elif parameter == 'h' and not 0 <= argument <= 0xffff:
            raise ValueError(f'{argument} is not 0 to 65535')
        else:
            words.append(argument)
    return getattr(_library, name)(*words)


def _answer(number) -> Answer:
    word, firings, tokens, place = struct.unpack('<4H', struct.pack('<Q', number))
    return Answer(_WORDS.get(word, 'refused'), 0 if word in _WORDS else word, firings, tokens, place)


def _tokens(records) -> List[Token]:
    return [Token(int.from_bytes(path, 'little'), iteration, instruction, port, value, _TOKEN_STATES[min(state, 2)])
            for path, iteration, port, instruction, value, state in TOKEN.iter_unpack(records)]


def _listed(ledger) -> bytes:
    out = ctypes.create_string_buffer(len(ledger))
    if _call('ttda_list', ledger, out) != 0:
        raise ValueError('the ledger is not whole records')
    return out.raw


def _instruction(instruction) -> bytes:
    operation, arcs, constant = Instruction(*instruction)
    code = _OPERATIONS[operation.upper()]
    if code >= _OPERATIONS['ADD'] and constant is not None:
        code += _WITH_CONSTANT
    (first, port), (second, other) = (list(arcs) + [(0, 0), (0, 0)])[:2]
    return INSTRUCTION.pack(code, len(arcs), port, other, first, second, constant or 0)


def graph_bytes(graph) -> bytes:
    """The records of a list of Instruction. Bytes stay as they are."""
    return graph if isinstance(graph, bytes) else b''.join(_instruction(instruction) for instruction in graph)


def input_bytes(inputs) -> bytes:
    """The records of a list of Input. Bytes stay as they are."""
    if isinstance(inputs, bytes):
        return inputs
    return b''.join(TOKEN.pack(ROOT, 0, port, instruction, value, 0) for instruction, port, value in inputs)


def pick_bytes(picks) -> bytes:
    """The records of a list of numbers. Bytes stay as they are."""
    return picks if isinstance(picks, bytes) else b''.join(PICK.pack(pick) for pick in picks)


def array_bytes(arrays) -> bytes:
    """The records of a list of pairs, first cell and length of each array. Bytes stay as they are."""
    return arrays if isinstance(arrays, bytes) else b''.join(ARRAY.pack(*array) for array in arrays)


def assembled(text) -> Files:
    """The files of a typed graph, made by the program dayomlak: the one that TTDA_DAYOMLAK names, that of the release, the project's
    own, or one on PATH. A text with faults raises ValueError, with all of them and their places."""
    places = [os.path.join(_HERE, '..', 'bin', 'dayomlak'),
              os.path.join(_HERE, '..', '..', 'tools', 'dayomlak', 'target', 'release', 'dayomlak'), shutil.which('dayomlak')]
    program = _first('the program dayomlak', 'TTDA_DAYOMLAK', places)
    with tempfile.TemporaryDirectory() as folder:
        done = subprocess.run([program, 'asm', '-', folder], input=text, capture_output=True, text=True, encoding='utf-8', check=False)
        if done.returncode != 0:
            raise ValueError(done.stderr)
        return Files(*(_read(os.path.join(folder, name)) for name in Files._fields))


def _read(path) -> bytes:
    with open(path, 'rb') as file:
        return file.read()


def _lent(graph, inputs, picks=(), arrays=None) -> Files:
    """What a call is lent. A typed graph has inputs, picks and arrays of its own, unless others are given."""
    typed = assembled(graph) if isinstance(graph, str) else Files(graph_bytes(graph), b'', b'')
    return Files(typed.graph,
                 typed.inputs if inputs is None else input_bytes(inputs),
                 typed.picks if picks is None else pick_bytes(picks),
                 typed.arrays if arrays is None else array_bytes(arrays))


def _buffers(capacity, cells):
    return ctypes.create_string_buffer(TOKEN.size * capacity), ctypes.create_string_buffer(CELL.size * cells)


def _left(number, ledger, memory) -> Run:
    answer = _answer(number)
    return Run(answer, number, ledger.raw[:TOKEN.size * answer.tokens], memory.raw)


def run(graph, inputs=None, picks=None, budget=MOST_RECORDS, capacity=MOST_RECORDS, cells=MOST_CELLS, arrays=None,
        bound=0) -> Run:
    """Runs a graph. Without picks the oldest enabled activity fires first. The constant of a FETCH or a STORE names one of the arrays,
    counted from 1. A bound from 2 to 256 holds loops back, 0 does not."""
    ledger, memory = _buffers(capacity, cells)
    files = _lent(graph, inputs, picks, arrays)
    number = _call('ttda_run', files.graph, files.arrays, files.inputs, files.picks, budget, bound, ledger, memory)
    return _left(number, ledger, memory)


def run_ranges(graph, inputs, picks=None, budget=MOST_RECORDS, capacity=MOST_RECORDS, cells=MOST_CELLS, arrays=None,
               bound=0) -> RangeRun:
    """Runs a graph whose inputs, a list of RangeInput or their bytes, are known only between limits. What completes or hangs here does so
    for every choice of the inputs, with each value in its range."""
    ledger = ctypes.create_string_buffer(RANGE_TOKEN.size * capacity)
    memory = ctypes.create_string_buffer(RANGE_CELL.size * cells)
    files = _lent(graph, b'', picks, arrays)
    lent = inputs if isinstance(inputs, bytes) else b''.join(
        RANGE_TOKEN.pack(ROOT, 0, port, instruction, low, 0, high) for instruction, port, low, high in inputs)
    answer = _answer(_call('ttda_run_ranges', files.graph, files.arrays, lent, files.picks, budget, bound, ledger, memory))
    return RangeRun(answer, ledger.raw[:RANGE_TOKEN.size * answer.tokens], memory.raw)


def carry_on(graph, left, picks=(), budget=MOST_RECORDS, capacity=MOST_RECORDS, arrays=None, bound=0) -> Run:
    """Goes on from what a run left."""
    ledger, memory = _buffers(capacity, len(left.memory) // CELL.size)
    ledger[:len(left.ledger)] = left.ledger
    memory[:] = left.memory
    counts = left.answer.firings, left.answer.tokens
    files = _lent(graph, b'', picks, arrays)
    number = _call('ttda_carry_on', files.graph, files.arrays, files.picks, budget, bound, *counts, ledger, memory)
    return _left(number, ledger, memory)


def run_logged(graph, inputs=None, picks=None, budget=MOST_RECORDS, capacity=MOST_RECORDS,
               cells=MOST_CELLS, arrays=None, bound=0) -> Tuple[Run, bytes]:
    """The run and its log."""
    ledger, memory = _buffers(capacity, cells)
    log = ctypes.create_string_buffer(LOGGED.size * MOST_RECORDS)
    files = _lent(graph, inputs, picks, arrays)
    number = _call('ttda_run_logged', files.graph, files.arrays, files.inputs, files.picks, budget, bound, ledger, memory, log)
    left = _left(number, ledger, memory)
    return left, log.raw[:LOGGED.size * left.answer.firings]


def activities(log) -> List[Activity]:
    """What the records of a log name, in the order of firing."""
    return [Activity(int.from_bytes(path, 'little'), iteration, instruction)
            for path, iteration, instruction in LOGGED.iter_unpack(log)]


def replay(graph, log, inputs=None, capacity=MOST_RECORDS, cells=MOST_CELLS, arrays=None) -> Run:
    """Fires what a log names."""
    ledger, memory = _buffers(capacity, cells)
    files = _lent(graph, inputs, arrays=arrays)
    return _left(_call('ttda_replay', files.graph, files.arrays, files.inputs, log, ledger, memory), ledger, memory)


def profile(graph, inputs=None, capacity=MOST_RECORDS, cells=MOST_CELLS, steps=MOST_RECORDS,
            arrays=None) -> Tuple[Run, List[Step]]:
    """The run by ideal steps, and the steps."""
    ledger, memory = _buffers(capacity, cells)
    files = _lent(graph, inputs, arrays=arrays)
    records, written = ctypes.create_string_buffer(STEP.size * steps), ctypes.c_uint64()
    number = _call('ttda_profile', files.graph, files.arrays, files.inputs, ledger, memory, records, ctypes.byref(written))
    return _left(number, ledger, memory), [Step(*step) for step in STEP.iter_unpack(records.raw[:STEP.size * written.value])]


def bounds(graph, inputs=None) -> Answer:
    """How many firings and tokens no run exceeds; the word is completed or refused."""
    files = _lent(graph, inputs)
    return _answer(_call('ttda_bounds', files.graph, files.inputs))


def expression_graph(expression) -> Tuple[Answer, bytes]:
    """The graph of an expression in bytes. The answer has the graph's records in the place of firings."""
    graph = ctypes.create_string_buffer(INSTRUCTION.size * (len(expression) // TERM.size + 1))
    answer = _answer(_call('ttda_expression', expression, graph))
    return answer, graph.raw[:INSTRUCTION.size * answer.firings]


def expression_value(expression, values) -> Tuple[Answer, Optional[int]]:
    """The value of an expression in bytes, of the values of its variables; None if it is refused."""
    number = _call('ttda_expression_value', expression, struct.pack(f'<{len(values)}i', *values))
    word, value, place = struct.unpack('<HiH', struct.pack('<Q', number))
    return Answer('refused' if word else 'completed', word, 0, 0, place), None if word else value


def held(graph, left: Run, bound) -> Held:
    """Which hang it was: how many activities a bound holds back in what a run left. If there are some, a run without the bound may end
    otherwise."""
    counts = left.answer.firings, left.answer.tokens
    number = _call('ttda_held', _lent(graph, b'').graph, bound, *counts, left.ledger, left.memory)
    word, held_back, enabled, _ = struct.unpack('<4H', struct.pack('<Q', number))
    return Held(held_back, enabled, word)


def serves(kept: Request, answer: Answer, asked: Request, held_back: int = 0) -> bool:
    """Whether what was kept of a run that gave this answer (listing, cells, profile) is that of the run asked for, too. Of a hang,
    `held_back` is what `held` counts."""
    word = answer.refusal or next(number for number, name in _WORDS.items() if name == answer.word)
    number, = struct.unpack('<Q', struct.pack('<4H', word, answer.firings, answer.tokens, answer.place))
    return _call('ttda_serves', *_request(kept), number, held_back, *_request(asked)) == 1


def _request(request):
    """The parts of a request in the order of ttda_serves."""
    limits = (request.budget, request.bound, request.capacity * TOKEN.size, request.cells * CELL.size)
    return request.graph, request.arrays, request.inputs, request.picks, (ctypes.c_uint64 * 4)(*limits)


def converted(records) -> bytes:
    """Token records of 20 bytes, from before paths of eight levels, as records of 28."""
    return _widened('ttda_convert', records, OLD_TOKEN, TOKEN)


def converted_log(records) -> bytes:
    """Log records of 12 bytes, from before paths of eight levels, as records of 20."""
    return _widened('ttda_convert_log', records, OLD_LOGGED, LOGGED)


def _widened(function, records, old, new) -> bytes:
    out = ctypes.create_string_buffer(new.size * (len(records) // old.size))
    if _call(function, records, out) != 0:
        raise ValueError(f'these are not whole records of {old.size} bytes, or too many')
    return out.raw
