"""A module of about so many bytes, in generic form: functions with constants, sums, casts, loads and stores, calls, loops, conditionals, branches, and operations of no dialect."""
import random

CONSTANTS = {
    'i32': lambda rng: f'{rng.randrange(-50, 1000)} : i32',
    'i64': lambda rng: f'{rng.randrange(9)} : i64',
    'index': lambda rng: f'{rng.randrange(1, 64)} : index',
    'f32': lambda rng: f'{rng.randrange(1, 9)}.500000e+00 : f32',
    'vector<4xf32>': lambda rng: f'dense<[{", ".join(f"{rng.randrange(9)}.000000e+00" for _ in range(4))}]> : vector<4xf32>',
}
SUMS = {
    'i32': ['addi', 'subi', 'muli', 'xori', 'andi', 'ori', 'maxsi'],
    'i64': ['addi', 'subi', 'muli'],
    'index': ['addi', 'muli'],
    'f32': ['addf', 'subf', 'mulf'],
    'vector<4xf32>': ['addf', 'mulf'],
}
TYPES, WEIGHTS = list(SUMS), [40, 12, 22, 18, 8]
MAPS = ['(d0) -> (d0 * {} + {})', '(d0) -> (d0 floordiv {})', '(d0)[s0] -> (d0 + s0 * {})']
ARGUMENTS = {'i32': ['%arg0'], 'i64': ['%arg1'], 'index': ['%arg2'], 'f32': ['%arg4'], 'vector<4xf32>': []}
SIGNATURE = 'i32, i64, index, memref<?xf32>, f32, i1'


class Function:
    """One function on the way: its lines, and the values of each type that may be named."""

    def __init__(self, number, functions, rng):
        self.rng, self.number, self.functions = rng, number, functions
        self.lines, self.count, self.depth, self.operations = [], 0, 1, 0
        self.values = {type_: list(some) for type_, some in ARGUMENTS.items()}

    def name(self):
        self.count += 1
        return f'%{self.count - 1}'

    def write(self, text):
        self.operations += 1
        self.lines.append('  ' * self.depth + text)

    def close(self, text):
        self.depth -= 1
        self.lines.append('  ' * self.depth + text)

    def label(self, text):
        self.lines.append('  ' * (self.depth - 1) + text)

    def value(self, type_):
        """A value of the type: one of the last ones rather than an early one."""
        some = self.values[type_]
        return some[-1 - int(self.rng.random() ** 2 * len(some))] if some else self.constant(type_)

    def make(self, type_, head):
        name = self.name()
        self.write(f'{name} = {head}')
        self.values[type_].append(name)
        return name

    def constant(self, type_):
        return self.make(type_, f'"arith.constant"() {{value = {CONSTANTS[type_](self.rng)}}} : () -> {type_}')

    def pure(self):
        """An operation without effects."""
        rng = self.rng
        type_, way = rng.choices(TYPES, WEIGHTS)[0], rng.random()
        if way < 0.25:
            return self.constant(type_)
        if type_ == 'i32' and way < 0.35:
            return self.choice()
        if type_ == 'i32' and way < 0.42:
            return self.make(type_, f'"arith.index_cast"({self.value("index")}) : (index) -> i32')
        if type_ == 'i64' and way < 0.5:
            return self.make(type_, f'"arith.extsi"({self.value("i32")}) : (i32) -> i64')
        if type_ == 'index' and way < 0.5:
            return self.apply()
        flags = ' {fastmath = #arith.fastmath<none>}' if 'f' in type_ else ''
        return self.make(type_, f'"arith.{rng.choice(SUMS[type_])}"({self.value(type_)}, {self.value(type_)}){flags} : ({type_}, {type_}) -> {type_}')

    def choice(self):
        test = self.name()
        self.write(f'{test} = "arith.cmpi"({self.value("i64")}, %arg1) {{predicate = {self.rng.randrange(6)} : i64}} : (i64, i64) -> i1')
        return self.make('i32', f'"arith.select"({test}, {self.value("i32")}, {self.value("i32")}) : (i1, i32, i32) -> i32')

    def apply(self):
        which = self.rng.randrange(3)
        some = [self.value('index') for _ in range(2 if which == 2 else 1)]
        text = MAPS[which].format(self.rng.randrange(2, 9), self.rng.randrange(9))
        return self.make('index', f'"affine.apply"({", ".join(some)}) {{map = affine_map<{text}>}} : ({", ".join(["index"] * len(some))}) -> index')

    def effect(self):
        """A load, a store, a call, or an operation of no dialect."""
        way = self.rng.random()
        if way < 0.35:
            self.write(f'"memref.store"({self.value("f32")}, %arg3, {self.value("index")}) : (f32, memref<?xf32>, index) -> ()')
        elif way < 0.6:
            self.make('f32', f'"memref.load"(%arg3, {self.value("index")}) : (memref<?xf32>, index) -> f32')
        elif way < 0.8:
            callee = f'{{callee = @function_{self.rng.randrange(self.functions)}}}'
            self.make('i32', f'"func.call"({self.value("i32")}, %arg1, %arg2, %arg3, {self.value("f32")}, %arg5) {callee} : ({SIGNATURE}) -> i32')
        else:
            self.step()

    def step(self):
        rng, inputs = self.rng, f'{self.value("vector<4xf32>")}, {self.value("i64")}'
        name = self.name()
        entries = f'accel.lanes = array<i64: 1, {rng.randrange(9)}>, accel.unit, hint = "{rng.choice(["near", "far", "left and right"])}", shape = [{rng.randrange(9)}, "x", {{a = 1 : i32}}]'
        self.write(f'{name}:2 = "accel.step"({inputs}) {{{entries}}} : (vector<4xf32>, i64) -> (vector<4xf32>, i64)')
        self.values['vector<4xf32>'].append(f'{name}#0')
        self.values['i64'].append(f'{name}#1')

    def body(self, count):
        for _ in range(count):
            if self.rng.random() < 0.1:
                self.effect()
            else:
                self.pure()

    def inside(self, end, type_, count, nest=0):
        """What stands in a region, up to its last operation."""
        known = {it: len(some) for it, some in self.values.items()}
        self.depth += 1
        self.body(count)
        if nest:
            self.loop(nest - 1)
        self.write(f'"{end}"({self.value(type_)}) : ({type_}) -> ()')
        for it, some in self.values.items():
            del some[known[it]:]

    def loop(self, nest):
        start = ', '.join([self.constant('index'), '%arg2', self.constant('index'), self.value('i32')])
        name, index, before = self.name(), self.name(), self.name()
        self.write(f'{name} = "scf.for"({start}) ({{')
        self.lines.append('  ' * self.depth + f'^bb0({index}: index, {before}: i32):')
        self.values['index'].append(index)
        self.values['i32'].append(before)
        self.inside('scf.yield', 'i32', self.rng.randrange(5, 12), nest if self.rng.random() < 0.6 else 0)
        self.values['index'].remove(index)
        self.values['i32'].remove(before)
        self.close('}) : (index, index, index, i32) -> i32')
        self.values['i32'].append(name)

    def conditional(self):
        name = self.name()
        self.write(f'{name} = "scf.if"(%arg5) ({{')
        self.inside('scf.yield', 'f32', self.rng.randrange(2, 6))
        self.close('}, {')
        self.inside('scf.yield', 'f32', self.rng.randrange(2, 6))
        self.close('}) : (i1) -> f32')
        self.values['f32'].append(name)

    def text(self):
        self.write('"func.func"() ({')
        self.depth += 1
        self.label('^bb0(%arg0: i32, %arg1: i64, %arg2: index, %arg3: memref<?xf32>, %arg4: f32, %arg5: i1):')
        self.body(self.rng.randrange(15, 30))
        self.loop(2)
        self.conditional()
        given = self.name()
        self.write(f'"cf.cond_br"(%arg5, {self.value("i32")})[^bb1, ^bb2] {{operand_segment_sizes = array<i32: 1, 1, 0>}} : (i1, i32) -> ()')
        for label in (f'^bb1({given}: i32):', '^bb2:'):
            self.label(label)
            self.depth -= 1
            self.inside('cf.br', 'i32', self.rng.randrange(6, 14))
            self.lines[-1] = self.lines[-1].replace(') : ', ')[^bb3] : ')
        last = self.name()
        self.label(f'^bb3({last}: i32):')
        self.write(f'"func.return"({last}) : (i32) -> ()')
        self.close(f'}}) {{function_type = ({SIGNATURE}) -> i32, sym_name = "function_{self.number}"}} : () -> ()')
        return '\n'.join(self.lines) + '\n'


def write_module(file, size, seed=1):
    """Writes a module of about so many bytes: how many operations it has."""
    rng, functions = random.Random(seed), max(1, size // 10_000)
    file.write('"builtin.module"() ({\n')
    written = number = 0
    operations = 1
    while written < size or number < functions:
        it = Function(number, functions, rng)
        text = it.text()
        file.write(text)
        written, number, operations = written + len(text), number + 1, operations + it.operations
    file.write('}) : () -> ()\n')
    return operations
