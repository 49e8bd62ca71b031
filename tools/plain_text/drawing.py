"""Random texts of every production of the generic form."""
import re

from .names import meaning_of_key

# An escape, or another character.
SPELLED = re.compile(r'\\[0-9A-Fa-f]{2}|\\.|.')

# The last character of a token, and the first of another that would go on with it.
GOES_ON = re.compile(r'[\w$.%^@#!-][\w$.-]')

LETTERS = 'abcxyz_$.'
GAPS = [' '] * 12 + ['', '', '', '  ', '\t', '\n', '\r\n', ' // a ) comment "\n', '\n// %0 = }\r\n', ' //\n\t']
TYPES = [
    'i32', 'f32', 'index', 'i1', 'i64', 'none', 'tensor<4xf32>', 'memref<?x?xf32, affine_map<(d0, d1) -> (d0 * 2 + d1, d0 - 1)>>',
    'vector<[4]x2xi8>', '!a.b', '!test<"a\\22>b">', '!llvm.struct<(i32, ptr<i8>)>', 'tuple<i32, tuple<>>', '!t<!u<[{()}]>>', 'complex<f64>', '!',
    'memref<2xi32, strided<[?, 1], offset: ?>, @space>', '!async.token', '!q<a >= b -> c>',
]
LISTED = ['(i32) -> i32', '() -> ()', '((i1) -> i1, f32) -> (i32, i32)', 'i32 [1, {2}] : x', '%a', '"text"', 'a | b', '- 1', '@f', '#m<>']
VALUES = [
    '1 : i32', '-7 : index', '1.500000e+00 : f32', 'dense<"0x00FF"> : tensor<2xi8>', 'dense<[[1, 2], [3, 4]]> : tensor<2x2xi32>', 'sparse<> : tensor<0xf32>',
    '"a string"', '"\\22\\5C\\n\\t\\\\ \\""', '@f', '@"a b"::@c', '@a::@b::@"\\FF"', '[]', '[1, [2 : i8, "x"], {a = 1, b}]', '{}', '{a = {b = [()]}, "c d"}', 'true', 'unit',
    'affine_map<(d0)[s0] -> (d0 + s0 floordiv 2)>', 'affine_set<(d0, d1) : (d0 >= 0, d1 - 1 == 0)>', '(i32, f32) -> (i32)', '() -> ()', 'i32', '!a.b<[1]>',
    '#a.b<"x", (d0) -> (d0), [>=]>', '#a', '# ', 'array<i32: 1, -2>', 'loc("f":1:2)', 'loc(unknown)', 'opaque<"d", "0x01"> : i1', '* ? + | -> -', 'x.y$z_0', '%x ^y', ': :',
]
NAMES = ['"a.b"', '"func.func"', '"x"', '"\\22q\\09"', '""', '"a \\\\ // b"']
LOCATIONS = ['unknown', '"f.mlir":1:2', 'fused["a":1:1, callsite("b" at "c")]', '#loc1', '"x"("y":3:4)', 'loc(unknown)']
PROPERTIES = ['<{}>', '<{a = 1 : i32, b = "}>"}>', '<{x = [1, 2], y = {z}}>', '<>', '<(a) -> b>']
KEYS = ['a', 'b', 'c.d', '$e', '_', '0', '1x', 'loc', 'value', 'sym_name', '"a"', '"b c"', '"\\61"', '"\\n"', '"x\\"y"', '""',
        '"\\62"', '"b\\20c"', '"\\0a"', '"\\0A"', '"x\\22y"', '"\\6c\\6Fc"', '"\\\\61"', '"\\5c61"']


class Scope:
    """A region on the way: its blocks' names, the values that it defines with their types, those that it has yet to define, and the names that the regions in it have defined which ended."""

    def __init__(self, around, labels):
        self.around, self.labels = around, labels
        self.values, self.later, self.inner = {}, [], set()


class Drawer:
    """Draws texts by a source of random numbers."""

    def __init__(self, rng):
        self.rng, self.parts, self.scope, self.left = rng, [], Scope(None, []), 0

    # ---- bytes

    def one(self, some):
        return some[int(self.rng.random() * len(some))]

    def happens(self, share):
        return self.rng.random() < share

    def number(self, most):
        """From 0 to that number, the small ones more often."""
        return int(self.rng.random() ** 2 * (most + 1))

    def gap(self):
        self.parts.append(self.one(self.gaps))

    def write(self, *tokens):
        """Writes tokens with gaps in front of them; where one would go on with the last, a blank divides them."""
        for token in tokens:
            self.gap()
            last = next((it[-1] for it in reversed(self.parts[-2:]) if it), '')
            if GOES_ON.match(last + token):
                self.parts.append(' ')
            self.parts.append(token)

    def listed(self, some, write):
        """Writes some with commas between them."""
        for place, it in enumerate(some):
            if place:
                self.write(',')
            write(it)

    # ---- names

    def name(self, sign):
        if self.happens(0.6):
            return f'{sign}{self.number(30)}'
        return sign + self.one(LETTERS + '-') + ''.join(self.one(LETTERS + '019-') for _ in range(self.number(3)))

    def visible(self):
        """The values that may be named here, by their names."""
        return {name: types for it in self.scopes() for name, types in it.values.items()}

    def scopes(self):
        """The region that is open, and those around it."""
        scope = self.scope
        while scope:
            yield scope
            scope = scope.around

    def new_value(self, scopes):
        """A name that is defined in none of the open regions, nor in one that ended in one of these. So regions beside one another may give the same."""
        while True:
            name = self.name('%')
            if not any(name in it.values for it in self.scopes()) and not any(name in it.inner for it in scopes):
                return name

    # ---- parts

    def text(self):
        """A text with its operations."""
        self.parts = []
        self.gaps = self.one([GAPS, GAPS, [' '], ['']])
        self.left = 1 + self.number(25)
        self.most = self.one([1, 2, 4, 30])
        self.scope = Scope(None, [])
        self.operations(1 + self.number(6), 0)
        self.finish()
        self.gap()
        return ''.join(self.parts)

    def operations(self, count, depth):
        for _ in range(count):
            if self.left > 0:
                self.left -= 1
                self.operation(depth)

    def finish(self):
        """Defines what was named in this region before it is defined."""
        for name, types in self.scope.later:
            self.write(name, *([':', str(len(types))] if len(types) > 1 else []), '=', '"later"', '(', ')', ':', '(', ')', '->', '(')
            self.listed(types, self.write)
            self.write(')')

    def results(self):
        """Defines results and writes their names; their types are written behind."""
        names = []
        for _ in range(self.number(3)):
            name = self.new_value([self.scope])
            self.scope.values[name] = [self.one(TYPES + LISTED) for _ in range(1 + self.number(3))]
            names.append(name)
        self.listed(names, self.result)
        if names:
            self.write('=')
        return [type_ for name in names for type_ in self.scope.values[name]]

    def result(self, name):
        self.write(name)
        count = len(self.scope.values[name])
        if count > 1 or self.happens(0.2):
            self.write(':', self.one(['', '', '0', '00']) + str(count))

    def use(self, types):
        """Writes an operand, and notes its type. What it names may be defined later, in this region or one around it."""
        visible = self.visible()
        if self.happens(0.08) or not visible:
            scopes = list(self.scopes())
            name, more = self.new_value(scopes), [self.one(TYPES) for _ in range(1 + self.number(1))]
            scope = self.one(scopes)
            scope.later.append((name, more))
            scope.values[name] = more
        else:
            name = self.one(list(visible))
            more = visible[name]
        which = self.number(len(more) - 1)
        self.write(name)
        if which or self.happens(0.15):
            self.write(f'#{which}')
        types.append(more[which])

    def operation_name(self):
        """The name of an operation, now and then with one of its letters as an escape."""
        spelled = SPELLED.findall(self.one(NAMES))
        letters = [place for place, it in enumerate(spelled) if it.isalpha()]
        if letters and self.happens(0.15):
            place = self.one(letters)
            spelled[place] = self.one(['\\%02x', '\\%02X']) % ord(spelled[place])
        return ''.join(spelled)

    def operation(self, depth):
        results = self.results()
        self.write(self.operation_name())
        self.write('(')
        operands = []
        self.listed(range(self.number(4)), lambda _: self.use(operands))
        self.write(')')
        if self.scope.labels and self.happens(0.6):
            self.write('[')
            self.listed([self.one(self.scope.labels) for _ in range(1 + self.number(2))], self.write)
            self.write(']')
        if self.happens(0.2):
            self.write(self.one(PROPERTIES))
        if depth < self.most and self.happens(0.45):
            self.write('(')
            self.listed(range(1 + self.number(2)), lambda _: self.region(depth + 1))
            self.write(')')
        if self.happens(0.4):
            self.dictionary()
        self.types(operands, results)
        if self.happens(0.25):
            self.write('loc', '(', self.one(LOCATIONS), ')')

    def dictionary(self):
        keys, seen = [], set()
        for _ in range(self.number(4)):
            key = self.one(KEYS)
            meaning = meaning_of_key(key)
            if meaning not in seen:
                seen.add(meaning)
                keys.append(key)
        self.write('{')
        self.listed(keys, self.entry)
        self.write('}')

    def entry(self, key):
        self.write(key)
        if self.happens(0.8):
            self.write('=', self.one(VALUES))

    def types(self, operands, results):
        self.write(':', '(')
        self.listed(operands, self.write)
        self.write(')', '->')
        if len(results) == 1 and results[0] not in LISTED and self.happens(0.6):
            self.write(results[0])
            return
        self.write('(')
        self.listed(results, self.write)
        self.write(')')

    def region(self, depth):
        """A region: the operations of its first block, which may have no label, and other blocks."""
        labels = []
        for _ in range(self.number(3)):
            label = self.name('^')
            if label not in labels:
                labels.append(label)
        outside, self.scope = self.scope, Scope(self.scope, labels)
        self.write('{')
        if not labels or self.happens(0.5):
            self.operations(self.number(3), depth)
        for label in labels:
            self.block(label)
            self.operations(self.number(3), depth)
        self.finish()
        self.write('}')
        outside.inner |= self.scope.inner | self.scope.values.keys()
        self.scope = outside

    def block(self, label):
        self.write(label)
        count = self.number(3)
        if count or self.happens(0.2):
            self.write('(')
            self.listed(range(count), lambda _: self.argument())
            self.write(')')
        self.write(':')

    def argument(self):
        name, type_ = self.new_value([self.scope]), self.one(TYPES + LISTED)
        self.scope.values[name] = [type_]
        self.write(name, ':', type_)
        if self.happens(0.3):
            self.write('loc', '(', self.one(LOCATIONS), ')')
