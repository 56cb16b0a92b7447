"""Makes random sources of the C subset that keep its scope rules and that a C compiler takes too: each name is declared before it is used, and
expressions are integers. Needs Python 3.8 and no package."""

TYPES = ("int", "char", "long", "unsigned", "unsigned long", "const int")
BINARY = ("+", "-", "*", "/", "%", "<<", ">>", "<", "<=", ">", ">=", "==", "!=", "&", "^", "|", "&&", "||")
ASSIGN = ("=", "+=", "-=", "*=", "/=", "%=", "&=", "|=", "^=", "<<=", ">>=")
NUMBERS = ("0", "1", "2", "3", "017", "0x2a", "42ul", "'a'", "'\\x41'")
PLACES = ("a", "b", "i", "j", "c[1]", "c[b]", "*p", "p[0]", "d")
BLANKS = ("", "", "", "", " ", "\n", "\t", " /* a note */ ", " // to the end\n")
DECLARED = """int a,b=1,c[4]={1,2,},*p;extern long d;static unsigned e=0x1fu;const char f[]={'x','\\n','\\0'};
int get(int,const char*);void put(int x[]);
"""


class Maker:
    """Makes the parts of one source. A `depth` is how many statements or operators may still stand in one another."""

    def __init__(self, random):
        self.random, self.one_of = random, random.choice
        self.defined, self.labels = [], []

    def expression(self, depth, calls=True):
        """An expression with at most one call, and with none where `calls` is false."""
        kind = self.random.randrange(12 if depth else 2)
        inner = lambda calls=calls: self.expression(depth - 1, calls)
        if kind == 0:
            return self.one_of(PLACES)
        if kind == 1:
            return self.one_of(NUMBERS)
        if kind == 2:
            return f"({inner()})"
        if kind == 3:
            return f"{self.one_of('+-!~')} {inner()}"
        if kind == 4:
            return self.one_of(("++", "--", "sizeof ")) + self.one_of(PLACES)
        if kind == 5:
            return self.one_of(PLACES[:6]) + self.one_of(("++", "--"))
        if kind == 6:
            return f"({self.one_of(TYPES)})({inner()})"
        if kind == 7:
            return f"({self.one_of(PLACES)}{self.one_of(ASSIGN)}{inner()})"
        if kind == 8:
            return f'get({inner(False)},"text" "\\n")' if calls else f"sizeof({self.one_of(TYPES)})"
        return f"({inner()}){self.one_of(BINARY)}{self.one_of(BLANKS)}({inner(False)})"

    def declaration(self):
        name = self.one_of("ijk")
        item = self.one_of((f"int {name}={self.expression(2)}", f"static long {name}", f"int {name}s[3]={{1,a}}", f"int*{name}p=&a,**{name}q"))
        return item + ";"

    def call(self):
        """A whole statement that calls a function which is defined."""
        name, params = self.one_of(self.defined)
        arguments = ",".join(self.expression(1, False) for _ in range(params))
        return f"{self.one_of(('', 'a='))}{name}({arguments});"

    def statement(self, depth, looped):
        kind = self.random.randrange(14 if depth else 3)
        inner = lambda looped=looped: self.one_of(BLANKS) + self.statement(depth - 1, looped)
        if kind == 0:
            return ";"
        if kind == 1:
            return self.expression(3) + ";"
        if kind == 2:
            return self.one_of(("break;", "continue;", "return a;") if looped else ("return 0;",))
        if kind < 5:
            other = "else" + " " + inner() if self.random.random() < 0.5 else ""
            return f"if({self.expression(2)}){{{inner()}}}{other}"
        if kind == 5:
            return f"while({self.expression(2)}){inner(True)}"
        if kind == 6:
            return f"do {inner(True)}while({self.expression(2)});"
        if kind == 7:
            return f"for({self.one_of(('int i=0;', 'i=0;', ';'))}{self.one_of(('', 'i<3'))};{self.expression(1)}){inner(True)}"
        if kind == 8 and self.labels:
            return f"{self.labels.pop()}:{inner()}"
        if kind < 11 and self.defined:
            return self.call()
        return f"{{{self.declaration()}{inner()}{inner()}}}"

    def body(self, size):
        """The statements of a function, of some `size` bytes. Names of labels come again in each function."""
        self.labels = [f"l{number}" for number in range(250)]
        parts, length = ["int i=0,j=1;"], 0
        while length < size:
            parts.append(self.statement(4, False) + self.one_of(BLANKS))
            length += len(parts[-1])
        return "".join(parts) + "return 0;"

    def function(self, name, size):
        params = self.one_of(((), ("int x",), ("int x", "char*y")))
        text = f"int {name}({','.join(params) or 'void'}){{{self.body(size)}}}\n"
        self.defined.append((name, len(params)))
        return text


def source(random, size, functions):
    """A source of at most `size` bytes, and not many less, with so many functions besides `main`."""
    maker = Maker(random)
    parts, left = [DECLARED], size - len(DECLARED)
    for number in range(functions, 0, -1):
        parts.append(maker.function(f"f{number}", 0.9 * left / (number + 1)))
        left -= len(parts[-1])
    parts.append(f"int main(void){{{maker.body(0.8 * left)}}}\n")
    return "".join(parts)
