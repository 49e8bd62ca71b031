"""Texts of one odd shape each, with so many parts."""


def nest(write, count):
    """regions inside one another, `count` deep"""
    write('"a.b"() ({\n' * count + '"a.c"() : () -> ()\n' + '}) : () -> ()\n' * count)


def outer(write, count):
    """a value used in each of so many regions inside one another"""
    write('%a = "a.def"() : () -> i32\n' + '"a.b"() ({\n"a.use"(%a) : (i32) -> ()\n' * count + '}) : () -> ()\n' * count)


def operands(write, count):
    """one operation with so many operands"""
    write(f'%0 = "a.c"() : () -> i32\n"a.d"({", ".join(["%0"] * count)}) : ({", ".join(["i32"] * count)}) -> ()\n')


def results(write, count):
    """one operation with so many results under one name, each used"""
    types = ', '.join(['i32'] * count)
    write(f'%0:{count} = "a.c"() : () -> ({types})\n"a.d"({", ".join(f"%0#{it}" for it in range(count))}) : ({types}) -> ()\n')


def names(write, count):
    """so many operations, each of which uses the one before"""
    write('%0 = "a.c"() : () -> i32\n')
    write(''.join(f'%{it} = "a.d"(%{it - 1}) : (i32) -> i32\n' for it in range(1, count)))


def forward(write, count):
    """so many uses, and then the definitions"""
    write(''.join(f'"a.use"(%{it}) : (i32) -> ()\n' for it in range(count)))
    write(''.join(f'%{it} = "a.def"() : () -> i32\n' for it in range(count)))


def blocks(write, count):
    """so many blocks, each of which leads to the next"""
    write('"a.b"() ({\n' + ''.join(f'"a.br"()[^b{it}] : () -> ()\n^b{it}:\n' for it in range(count)) + '}) : () -> ()\n')


def arguments(write, count):
    """one block with so many arguments"""
    write('"a.b"() ({\n^bb0(' + ', '.join(f'%{it}: i32' for it in range(count)) + '):\n}) : () -> ()\n')


def regions(write, count):
    """one operation with so many regions, each of which defines one name"""
    write('"a.b"() (' + ', '.join(['{\n%x = "a.c"() : () -> i32\n}'] * count) + ') : () -> ()\n')


def attributes(write, count):
    """one operation with so many attributes"""
    write('"a.b"() {' + ', '.join(f'key{it} = {it} : i32' for it in range(count)) + '} : () -> ()\n')


def lines(write, count):
    """so many lines of one byte each"""
    write('"a"() {x =\n[\n' + '1\n,\n' * (count // 2) + '1\n]\n} : () -> ()\n')


def brackets(write, count):
    """an attribute of so many brackets inside one another"""
    write('"a"() {x = ' + '[' * count + ']' * count + '} : () -> ()\n')


def sums(write, count):
    """an affine map of so many sums"""
    write('"a"() {x = affine_map<(d0) -> (d0' + ' + d0' * count + ')>} : () -> ()\n')


# What is printed of the deep ones grows with the square of the depth, by the blanks in front of each line.
DEEP = [nest, outer]
SHAPES = [*DEEP, operands, results, names, forward, blocks, arguments, regions, attributes, lines, brackets, sums]
