"""Programs made at random whose values can be followed: loops that count, arrays, expressions of every kind. Used by the scripts beside it; needs Python 3.8 and no package."""
from making import LABELS, Maker

BINARY = ["+", "-", "*", "/", "%", "<", "<=", ">", ">=", "==", "!=", "&", "|", "^", "<<", ">>", "&&", "||"]
ASSIGN = ["=", "=", "=", "+=", "-=", "*=", "/=", "%=", "&=", "|=", "^=", "<<=", ">>="]
NUMBERS = ["0", "1", "1", "2", "3", "7", "63", "64", "'a'", "0x1F", "010", "1UL", "9223372036854775807"]


class Valued(Maker):
    """As `Maker`, but statements compute."""

    def leaf(self):
        chance = self.chance
        return chance.choice([chance.choice(NUMBERS), chance.choice(["n", "x", "i", "k"]), chance.choice(["n", "x", "i", "k", "c", "q"]), "t[%s]" % chance.choice(["0", "1", "i", "3", "4"]), "u[i]"])

    def value(self, depth=2, calls=True):
        """An expression, with one external call in it at the most."""
        chance = self.chance
        kind = chance.randint(0, 9)
        if depth == 0 or kind <= 2:
            return self.leaf()
        if kind == 3 and calls:
            return "get(%s)" % ", ".join(self.argument() for _ in range(chance.randint(0, 2)))
        if kind == 4:
            return "%s(%s)" % (chance.choice(["-", "!", "~", "+", "(char)", "(long)"]), self.value(depth - 1, calls))
        if kind == 5:
            return "(%s%s%s)" % (chance.choice(["n", "i", "u[1]"]), chance.choice(ASSIGN), self.value(depth - 1, calls))
        if kind == 6:
            return chance.choice(["n++", "--i", "i++", "++n", "u[0]++", "sizeof(int)", "*x", "&n", "(n)"])
        left = calls and chance.random() < 0.5
        return "(%s%s%s)" % (self.value(depth - 1, left), " " + chance.choice(BINARY) + " ", self.value(depth - 1, calls and not left))

    def argument(self):
        return self.chance.choice([self.leaf(), '"text"', "&n", "t", "c", self.value(1, False)])

    def statement(self, depth, functions, variables, used, looped):
        chance = self.chance
        kind = chance.randint(0, 15)
        inner = lambda loop: self.statements(depth - 1, functions, variables, used, loop)
        if kind <= 3:
            return "%s%s%s;" % (chance.choice(["n", "i", "u[1]", "u[i]", "n"]), chance.choice(ASSIGN), self.value())
        if kind == 4:
            return "put(%s);" % ", ".join(self.argument() for _ in range(chance.randint(1, 3)))
        if kind == 5 and depth:
            return "for(i=0;i<%d;i++){%s}" % (chance.randint(0, 5), inner(True))
        if kind == 6 and depth:
            return "if(%s){%s}else{%s}" % (self.value(), inner(looped), inner(looped))
        if kind == 7 and depth:
            return "i=%d;while(i-- > 0){%s}" % (chance.randint(0, 5), inner(True))
        if kind == 8:
            return "{int z%d=%s;int y%d[%s]={1,2};put(z%d,y%d[0]);}" % ((self.number(),) + (self.value(),) + (self.count, chance.choice(["", "2", "3", "1", "n"]), self.count, self.count))
        if kind == 9 and functions:
            return "%s%s(%s);" % (chance.choice(["", "n=", "n=", "u[0]=" if chance.random() < 0.02 else "i="]), chance.choice(functions), self.value(1, False).replace("get", "put"))
        if kind == 10 and chance.random() < 0.3:
            return "return %s;" % self.value()
        if kind == 11 and chance.random() < 0.3:
            return chance.choice(["k=%s;", "t[1]=%s;", "k++;put(%s);"]) % self.value(1)
        return super().statement(depth, functions, variables, used, looped)

    def number(self):
        self.count = getattr(self, "count", 0) + 1
        return self.count

    def source(self, variables):
        chance = self.chance
        functions = ["f", "g", "h"][: chance.randint(0, 3)]
        text = "".join("int %s;" % name for name in variables)
        text += chance.choice(["int k;int t[4];", "int k=3;int t[]={1,2,3,4};", "int k=1+2*3;int t[4]={9};", "int t[2+2];int k=-1;"])
        text += "".join("int %s(int x);" % name for name in functions)
        labels = set()
        for name in functions:
            used = set()
            head = chance.choice(["int n=0;int i=0;int u[3]={0};", "int n;int i=1;int u[2]={1,2};"])
            guard = "if(x<=0)return %s;" % self.leaf() if chance.random() < 0.8 else ""
            text += "int %s(int x){%s%s%sreturn %s;}" % (name, head, guard, self.statements(2, functions, variables, used, False), self.value(1))
            labels |= used
        used = set()
        body = self.statements(3, functions, variables, used, False)
        text += "int main(int argc){int n=0;int x=2;int i=0;int u[3]={0};%sreturn 0;}" % body
        return text, sorted(labels | used) or [LABELS[0]], functions
