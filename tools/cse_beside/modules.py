"""Modules of operations that the table knows as pure, of which many are alike: in one block, in blocks beside one another, and in regions inside one another."""
import random

TYPES = ['i32', 'i64', 'i1', 'index', 'f32', 'vector<4xf32>', 'complex<f32>']
FAST = {'fastmath': ['#arith.fastmath<none>', '#arith.fastmath<fast>']}
SWAPPED = 'addi muli andi ori xori addf mulf'


def binary(names, type_, **attributes):
    return [(name, (type_, type_), (type_,), attributes) for name in names.split()]


def constants(name, type_, texts):
    return [(name, (), (type_,), {'value': texts})]


# Each with the types of its operands and results, and the texts that its attributes may have.
ROWS = [
    *constants('arith.constant', 'i32', [f'{it} : i32' for it in range(5)]),
    *constants('arith.constant', 'i64', [f'{it} : i64' for it in range(3)]),
    *constants('arith.constant', 'f32', ['5.000000e-01 : f32', '2.500000e+00 : f32']),
    *constants('arith.constant', 'vector<4xf32>', ['dense<[1.0, 2.0, 3.0, 4.0]> : vector<4xf32>', 'dense<0.0> : vector<4xf32>']),
    *constants('index.constant', 'index', ['1 : index', '2 : index']),
    *binary('arith.addi arith.subi arith.muli arith.andi arith.ori arith.xori arith.maxsi arith.minui arith.shli', 'i32'),
    *binary('arith.addi arith.subi arith.muli', 'i64'),
    *binary('arith.addi arith.muli index.add index.sub index.mul index.maxs', 'index'),
    *binary('arith.addf arith.subf arith.mulf arith.divf', 'f32', **FAST),
    *binary('arith.addf arith.mulf', 'vector<4xf32>', **FAST),
    *binary('complex.add complex.mul', 'complex<f32>'),
    ('arith.addui_extended', ('i32', 'i32'), ('i32', 'i1'), {}),
    ('arith.mulsi_extended', ('i32', 'i32'), ('i32', 'i32'), {}),
    ('arith.cmpi', ('i32', 'i32'), ('i1',), {'predicate': [f'{it} : i64' for it in range(4)]}),
    ('arith.cmpf', ('f32', 'f32'), ('i1',), {'predicate': ['1 : i64', '4 : i64']}),
    ('arith.select', ('i1', 'i32', 'i32'), ('i32',), {}),
    ('arith.index_cast', ('index',), ('i32',), {}),
    ('arith.index_cast', ('i32',), ('index',), {}),
    ('arith.extsi', ('i32',), ('i64',), {}),
    ('arith.trunci', ('i64',), ('i32',), {}),
    ('arith.sitofp', ('i32',), ('f32',), {}),
    ('math.absf', ('f32',), ('f32',), {}),
    ('math.sqrt', ('f32',), ('f32',), {}),
    ('math.fma', ('f32', 'f32', 'f32'), ('f32',), {}),
    ('math.ctpop', ('i32',), ('i32',), {}),
    ('complex.create', ('f32', 'f32'), ('complex<f32>',), {}),
    ('complex.re', ('complex<f32>',), ('f32',), {}),
    ('vector.broadcast', ('f32',), ('vector<4xf32>',), {}),
    ('vector.extract', ('vector<4xf32>',), ('f32',), {'position': ['[0]', '[3]']}),
    ('affine.apply', ('index',), ('index',), {'map': ['affine_map<(d0) -> (d0 * 3 + 1)>', 'affine_map<()[s0] -> (s0 floordiv 4)>']}),
    ('affine.max', ('index', 'index'), ('index',), {'map': ['affine_map<(d0, d1) -> (d0, d1)>']}),
]


class Function:
    """One function on the way: its lines, and the operations that may be said again."""

    def __init__(self, number, shape, rng, again, swaps):
        self.number, self.shape, self.rng, self.again, self.swaps = number, shape, rng, again, swaps
        self.lines, self.count, self.depth = [], 0, 2
        self.values, self.said = {it: [f'%arg{place}'] for place, it in enumerate(TYPES)}, []

    def name(self):
        self.count += 1
        return f'%{self.count - 1}'

    def write(self, text):
        self.lines.append('  ' * self.depth + text)

    def label(self, text):
        self.lines.append('  ' * (self.depth - 1) + text)

    def value(self, type_):
        """A value of the type: one of the last ones rather than an early one."""
        some = self.values[type_]
        return some[-1 - int(self.rng.random() ** 2 * len(some))]

    def entries(self, chosen):
        """The attributes, and sometimes two more, in any order."""
        entries = list(chosen)
        self.rng.shuffle(entries)
        return f' {{{", ".join(f"{key} = {text}" for key, text in entries)}}}' if entries else ''

    def draw(self):
        """A new operation: its name, operands, types and attributes."""
        name, operands, results, attributes = self.rng.choice(ROWS)
        chosen = [(key, self.rng.choice(texts)) for key, texts in attributes.items()]
        if self.rng.random() < 0.2:
            chosen += [('low', f'{self.rng.randrange(2)} : i32'), ('of', '"a tag"')]
        return name, [self.value(it) for it in operands], operands, results, chosen

    def repeated(self):
        """An operation that stood already, sometimes with its operands the other way round."""
        name, values, operands, results, chosen = self.rng.choice(self.said)
        if self.rng.random() < self.swaps and name.partition('.')[2] in SWAPPED:
            values = values[::-1]
        return name, values, operands, results, chosen

    def operation(self):
        it = self.repeated() if self.said and self.rng.random() < self.again else self.draw()
        name, values, operands, results, chosen = it
        self.said.append(it)
        number = self.name()
        head = f'{number}:{len(results)}' if results[1:] else number
        types = f'({", ".join(results)})' if results[1:] else results[0]
        self.write(f'{head} = "{name}"({", ".join(values)}){self.entries(chosen)} : ({", ".join(operands)}) -> {types}')
        for place, type_ in enumerate(results):
            self.values[type_].append(f'{number}#{place}' if results[1:] else number)

    def body(self, count):
        """So many operations, and one that uses most of what they give."""
        known = {it: len(some) for it, some in self.values.items()}
        for _ in range(count):
            self.operation()
        made = [(value, it) for it, some in self.values.items() for value in some[known[it]:] if self.rng.random() < 0.9]
        self.write(f'"any.uses"({", ".join(value for value, _ in made)}) : ({", ".join(it for _, it in made)}) -> ()')

    def inside(self, count, end):
        """What stands in a region or block, up to its last operation: nothing of it is seen behind."""
        values, said = {it: list(some) for it, some in self.values.items()}, list(self.said)
        self.body(count)
        self.write(end)
        self.values, self.said = values, said

    def nested(self, count, depth):
        """A loop around so many operations, and such a loop in it."""
        index = self.name()
        self.write(f'"scf.for"({self.value("index")}, %arg3, {self.value("index")}) ({{')
        self.label(f'  ^bb0({index}: index):')
        self.depth += 1
        self.values['index'].append(index)
        if depth:
            self.nested(count, depth - 1)
        self.inside(count, '"scf.yield"() : () -> ()')
        self.values['index'].remove(index)
        self.depth -= 1
        self.write('}) : (index, index, index) -> ()')

    def beside(self, count):
        """Two blocks beside one another, and one behind both; where the shape is `lost`, also two that nothing leads to."""
        self.write('"cf.cond_br"(%arg2)[^bb1, ^bb2] {operand_segment_sizes = array<i32: 1, 0, 0>} : (i1) -> ()')
        lost = [('^lost1', '^lost2'), ('^lost2', '^bb3')] if self.shape == 'lost' else []
        for label, behind in [('^bb1', '^bb3'), *lost, ('^bb2', '^bb3')]:
            self.label(f'{label}:')
            self.inside(count, f'"cf.br"()[{behind}] : () -> ()')
        self.label('^bb3:')
        self.body(count)

    def text(self, count):
        self.label('"func.func"() ({')
        self.label('^bb0(' + ', '.join(f'%arg{place}: {it}' for place, it in enumerate(TYPES)) + '):')
        if self.shape == 'block':
            self.body(count)
        else:
            self.body(count // 4)
            self.nested(count // 4, 2) if self.shape == 'nested' else self.beside(count // 4)
        self.write('"func.return"() : () -> ()')
        self.label(f'}}) {{function_type = ({", ".join(TYPES)}) -> (), sym_name = "function_{self.number}"}} : () -> ()')
        return '\n'.join(self.lines) + '\n'


def module(shape, operations, functions, seed, again=0.6, swaps=0.0):
    """A module with about so many operations in so many functions of a shape."""
    rng = random.Random(seed)
    bodies = [Function(number, shape, rng, again, swaps).text(operations // functions) for number in range(functions)]
    return '"builtin.module"() ({\n' + ''.join(bodies) + '}) : () -> ()\n'
