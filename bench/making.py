"""Pairs of a policy and a program made at random, that fit each other, mostly, and other ways to say them. Used by the scripts beside it; needs Python 3.8 and no package."""
import re

RIGHTS = ["CAP_READ", "CAP_WRITE", "CAP_SEEK", "CAP_FSTAT"]
LABELS = ["a", "b", "d", "e"]
FUNCTIONS = ["f", "g", "h"]


class Maker:
    """With `splits` some policies split functions, and some functions do what forbids it."""

    def __init__(self, chance, splits=False):
        self.chance = chance
        self.splits = splits

    def statements(self, depth, functions, variables, used, looped):
        return "".join(self.statement(depth, functions, variables, used, looped) for _ in range(self.chance.randint(1, 3)))

    def statement(self, depth, functions, variables, used, looped):
        kind = self.chance.randint(0, 13)
        inner = lambda loop: self.statements(depth - 1, functions, variables, used, loop)
        if kind <= 2:
            label = self.chance.choice(LABELS)
            if label not in used:
                used.add(label)
                return label + ":;"
        elif kind == 3 and depth:
            return "if(c){%s}else{%s}" % (inner(looped), inner(looped))
        elif kind == 4 and depth:
            return "while(c){%s}" % inner(True)
        elif kind == 5 and depth:
            return "for(%s;%s;%s){%s}" % (self.chance.choice(["", "n=0"]), self.chance.choice(["", "c"]), self.chance.choice(["", "n=n+1"]), inner(True))
        elif kind in (6, 7) and functions:
            return "%s%s(1);" % (self.chance.choice(["", "", "n="]), self.chance.choice(functions))
        elif kind == 8 and variables:
            return "%s=open_it();" % self.chance.choice(variables)
        elif kind == 9:
            return "close(%s);" % self.chance.choice(variables + ["0"])
        elif kind == 10 and looped:
            return self.chance.choice(["break;", "continue;"])
        elif kind == 11 and depth:
            return "do{%s}while(c);" % inner(True)
        elif kind == 12 and depth and self.chance.random() < 0.3:
            return "if(c)return 0;"
        elif kind == 13 and self.splits and self.chance.random() < 0.3:
            return self.chance.choice(["t[0]=1;", "n=t[0];", "k++;", "n=x;", "{static int s;}", "put(t);", "k=k;"])
        return self.chance.choice([";", "c;"])

    def source(self, variables):
        chance = self.chance
        functions = FUNCTIONS[: chance.randint(0, 3)]
        text = "".join("int %s;" % name for name in variables) + ("int k;int t[4];" if self.splits else "")
        text += "".join("int %s(int x);" % name for name in functions)
        labels = set()
        for name in functions:
            used = set()
            text += "int %s(int x){int n;%sreturn 0;}" % (name, self.statements(2, functions, variables, used, False))
            labels |= used
        used = set()
        body = self.statements(3, functions, variables, used, False)
        text += "int main(void){int n;int x;%sreturn 0;}" % body
        return text, sorted(labels | used) or ["a"], functions

    def rights(self, least, most):
        return ", ".join('"%s"' % right for right in self.chance.sample(RIGHTS, self.chance.randint(least, most)))

    def expression(self, labels, tests, depth=2):
        """An expression of bad words."""
        chance = self.chance
        kind = chance.randint(0, 7)
        if depth == 0 or kind <= 3:
            atom = chance.choice(labels + ["."])
            return atom + ("[%s%s]" % (chance.choice(["", "!"]), chance.choice(tests)) if chance.random() < 0.4 else "")
        if kind == 4:
            return "(%s | %s)" % (self.expression(labels, tests, depth - 1), self.expression(labels, tests, depth - 1))
        if kind == 5:
            return "(%s)%s" % (self.expression(labels, tests, depth - 1), chance.choice("*+?"))
        return "%s %s" % (self.expression(labels, tests, depth - 1), self.expression(labels, tests, depth - 1))

    def policy(self, variables, labels, functions=()):
        chance = self.chance
        kinds = ("limit", "enter", "split") if self.splits else ("limit", "enter")
        text = "format = %d\n" % chance.choice([1, 1, 2])
        text += "refusable = [%s]\n" % ", ".join('"%s"' % kind for kind in kinds if chance.random() < 0.3)
        if self.splits and functions and chance.random() < 0.8:
            text += "split = [%s]\n" % ", ".join('"%s"' % name for name in chance.sample(functions, chance.randint(1, len(functions))))
        if chance.random() < 0.3:
            text += 'on_refusal = "stop"\n'
        held = variables + (["0"] if chance.random() < 0.5 else [])
        for name in held:
            text += '[[descriptor]]\nname = "%s"\nrights = [%s]\n' % (name, self.rights(1, 3))
        for _ in range(chance.randint(0, 2) if held else 0):
            text += '[[limit]]\ndescriptor = "%s"\nkeep = [%s]\n' % (chance.choice(held), self.rights(0, 2))
        tests = ["amb"] + ["%s:%s" % (name, right) for name in held for right in RIGHTS]
        for _ in range(chance.randint(1, 3)):
            label = chance.choice(labels if chance.random() < 0.97 else LABELS)
            text += '[[at]]\nlabel = "%s"\n%s = ["%s"]\n' % (label, chance.choice(["must", "never"]), chance.choice(["amb"] + tests))
        if chance.random() < 0.3:
            bad = ".* %s .* %s[%s]" % (chance.choice(labels), chance.choice(labels), chance.choice(tests))
            text += '[[rule]]\nname = "r"\nbad = "%s"\n' % bad
        if chance.random() < 0.2:
            text += '[[rule]]\nname = "s"\nbad = "%s%s"\n' % (chance.choice(["", ".* "]), self.expression(labels, tests))
        return text

    def pair(self):
        variables = self.chance.sample(["fd", "gd"], self.chance.randint(0, 2))
        source, labels, functions = self.source(variables)
        return self.policy(variables, labels, functions), source


# ---- sources that were there before


KEYWORDS = {"if", "while", "for", "switch", "return", "sizeof", "else", "do", "main", "default", "case"}


def fitting(chance, source):
    """A policy for any source, of the names that stand in it."""
    labels = [name for name in re.findall(r"(?:^|[;{}:])\s*([A-Za-z_]\w*)\s*:(?!:)", source, re.M) if name not in KEYWORDS]
    functions = [name for name in re.findall(r"\b([A-Za-z_]\w*)\s*\([^;{}()]*\)\s*\{", source) if name not in KEYWORDS]
    variables = re.findall(r"^(?:static )?int ([A-Za-z_]\w*)(?: = [^;]*)?;", source, re.M)
    maker = Maker(chance, True)
    return maker.policy(sorted(set(variables))[: chance.randint(0, 3)], sorted(set(labels))[:9] or ["a"], sorted(set(functions))[:5])


def labelled(chance, source):
    """A source with some labels where statements begin, mostly, and now and then without what the subset knows no line for."""
    lines = source.split("\n")
    if chance.random() < 0.7:
        lines = [line for line in lines if not line.startswith("#") or line.startswith("#include")]
    places = [at for at in range(1, len(lines)) if re.match(r"\s+\S", lines[at]) and re.search(r"[;{}]\s*$", lines[at - 1])]
    for at, name in zip(chance.sample(places, min(len(places), chance.randint(1, 4))), LABELS):
        lines[at] = name + ":;" + lines[at]
    return "\n".join(lines)


def mixed(chance, source, other):
    """A source with statements of another one in the place of some of its own."""
    lines = [line.strip() for line in re.findall(r"^\s+[^{}#\n]*;[ \t]*$", other, re.M)]
    lines = [line for line in lines if line.count("(") == line.count(")")] or [";"]
    return re.sub(r"\bc;", lambda found: chance.choice(lines) if chance.random() < 0.6 else found.group(), source)


def form_of(source, names):
    """The form of a source of `Maker` in which calls of these functions aren't waited for."""
    return re.sub(r"(?<![=\w])(?:%s)\(1\);" % "|".join(names), r"{if(!fork()){\g<0>_exit(0);for(;;);}}", source).encode()


def detached(policy, names):
    """A policy, in format 2, that detaches these functions besides."""
    text = re.sub(r"^format *=.*$", "", policy, count=1, flags=re.M)
    return "format = 2\ndetached = [%s]\n%s" % (", ".join('"%s"' % name for name in names), text)


# ---- the ways of TOML


def quoted(chance, text):
    """A string that has this text, in one of the ways of TOML."""
    kind = chance.randrange(6)
    if kind == 0:
        return "'%s'" % text
    if kind == 1:
        return '"""%s%s"""' % (chance.choice(["", "\n", "\\\n  "]), text)
    if kind == 2:
        return "'''%s%s'''" % (chance.choice(["", "\n", "\r\n"]), text)
    if kind == 3 and text:
        at = chance.randrange(len(text))
        escape = chance.choice(["\\u%04x", "\\U%08X", "\\x%02x", "\\u%04X"]) % ord(text[at])
        return '"%s%s%s"' % (text[:at], escape, text[at + 1 :])
    return '"%s"' % text


def respelled(chance, policy):
    """The same policy in other ways of TOML, now and then in none."""
    strings = chance.random() * 0.5
    text = re.sub(r'"([^"\\\n]*)"', lambda found: quoted(chance, found.group(1)) if chance.random() < strings else found.group(), policy)
    if chance.random() < 0.3:
        text = re.sub(r"^format = (\d)", lambda found: "format = " + chance.choice(["0x%s", "+%s", "0b%s", "0o%s", "%s.0", "%s_0", "0%s", "%s # "]) % found.group(1), text, count=1)
    if chance.random() < 0.3:
        text = re.sub(r"^(\w+) =", lambda found: chance.choice(['"%s" =', "'%s'=", "%s\t=", " %s  = ", '"""%s"""=', "%s . a ="] if chance.random() < 0.1 else ['"%s" =', "'%s'=", "%s\t=", " %s  = "]) % found.group(1), text, flags=re.M)
    if chance.random() < 0.3:
        text = re.sub(r"\[\[(\w+)\]\]", lambda found: chance.choice(["[[ %s ]]", '[["%s"]]', "[[%s]] # c", "[[ '%s']]", "[[%s]]\n\n"]) % found.group(1), text)
    if chance.random() < 0.3:
        text = re.sub(r"(?<=[\]\w\"'])\n", lambda found: chance.choice(["\n", " \n", "# a [\" \n", "\t#\n", "\r\n", "\n\n", " # \u00e9\n"]), text)
    if chance.random() < 0.2:
        text = re.sub(r"= \[(?=.)", lambda found: chance.choice(["= [", "= [\n", "= [ # x\n ", "=["]), text)
    if chance.random() < 0.2:
        text = re.sub(r"\](?=\s*\n)", lambda found: chance.choice(["]", ",]", "\n]", " , #\n]"]), text)
    if chance.random() < 0.2:
        tables = re.findall(r"^\[\[at\]\]\n((?:[^\[\n][^\n]*\n)+)", text, flags=re.M)
        rest = re.sub(r"^\[\[at\]\]\n((?:[^\[\n][^\n]*\n)+)", "", text, flags=re.M)
        head, _, body = rest.partition("\n")
        inline = ", ".join("{ %s }" % ", ".join(table.strip().split("\n")) for table in tables)
        text = "%s\nat = [%s]\n%s" % (head, inline, body)
    return text
