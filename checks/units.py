#!/usr/bin/env python3
"""Works out the cases of crates/nt_show_units/stdout anew, from the grammar of docs/UNITS.md and in another way than the readers:
it backs up where a rule fails. Prints each line that differs, and how many did."""
import re
import sys

LEFT_OUT = set("""alias always_latch assert bind buf casex casez chandle class clocking config covergroup disable do endclass enum event
export extern final force fork generate genvar interface join modport nand nor packed priority program property pulldown pullup rand
real realtime ref release sequence shortreal specify string supply0 supply1 tagged tri0 tri1 triand trior trireg union unique uwire
virtual wand wor task endtask""".split())
WORDS = set("""package endpackage import parameter localparam typedef nettype with logic reg bit byte shortint int longint integer time
signed unsigned struct module endmodule input output inout wire tri var interconnect assign initial always always_comb always_ff
function automatic static void endfunction begin end if else case default endcase while repeat for forever foreach or wait return break
continue posedge negedge""".split())
TOKEN = re.compile(r"""(?P<blank>\s+|//[^\n]*|/\*.*?\*/)|(?P<number>(?:[0-9][0-9_]*)?'[sS]?[bodhBODH][0-9a-fA-FxXzZ?][0-9a-fA-FxXzZ?_]*|'[01xXzZ](?![0-9a-zA-Z_])
|[0-9][0-9_]*)|(?P<name>[A-Za-z_][A-Za-z0-9_$]*)|(?P<system>\$[A-Za-z_][A-Za-z0-9_$]*)|(?P<text>"(?:[^"\\]|\\.)*")
|(?P<mark>'\{|<<<|>>>|===|!==|\+\+|--|\+:|-:|::|<=|>=|==|!=|&&|\|\||<<|>>|~&|~\||~\^|\^~|[-;:,.=\[\]{}()#@?+*/%!~&|^<>])""", re.S | re.X)
INT_WORDS = ("byte", "shortint", "int", "longint", "integer", "time")
BINARY = ["||", "&&", "|", "^ ~^ ^~", "&", "== != === !==", "< <= > >=", "<< >> <<< >>>", "+ -", "* / %"]
UNARY = "+ - ! ~ & ~& | ~| ^ ~^ ^~".split()


class No(Exception):
    """A rule derives nothing here."""


def lex(text):
    out, at = [], 0
    while at < len(text):
        m = TOKEN.match(text, at)
        if not m:
            raise ValueError(at)
        kind = m.lastgroup
        if kind != "blank":
            s = m.group()
            if kind == "name" and s in LEFT_OUT:
                kind = "out"
            elif kind == "name" and s in WORDS:
                kind = "word"
            out.append((kind, s, at))
        at = m.end()
    out.append(("end", "", len(text)))
    return out


def width(number):
    if number.isdigit() or "_" in number and "'" not in number:
        return 32
    size, rest = number.split("'")
    if not rest[1:] or rest[0] in "01xXzZ" and len(rest) == 1:
        return 1
    return int(size.replace("_", "")) if size else 32


class Parser:
    def __init__(self, text):
        self.toks, self.at = lex(text), 0

    def is_(self, s, ahead=0):
        k, v, _ = self.toks[min(self.at + ahead, len(self.toks) - 1)]
        return k in ("word", "mark") and v == s

    def kind(self, ahead=0):
        return self.toks[min(self.at + ahead, len(self.toks) - 1)][0]

    def place(self):
        return self.toks[self.at][2]

    def want(self, s):
        if not self.is_(s):
            raise No
        self.at += 1

    def maybe(self, *words):
        for s in words:
            if self.is_(s):
                self.at += 1
                return s
        return None

    def name(self):
        if self.kind() != "name":
            raise No
        self.at += 1
        return "%d:%s" % (self.toks[self.at - 1][2], self.toks[self.at - 1][1])

    def tries(self, rule):
        """The rule, or nothing, with all as it was."""
        was = self.at
        try:
            return rule()
        except No:
            self.at = was
            return None

    def many(self, rule, by=","):
        out = [rule()]
        while self.maybe(by):
            out.append(rule())
        return out

    # ---- expressions, of which the text tells the place, and the name or number that one is

    def ref(self):
        n = self.name()
        if self.is_("::"):
            self.at += 1
            n += "::" + self.name().split(":")[1]
        return n

    def selects(self, free):
        while True:
            if self.maybe("["):
                self.expr()
                if self.maybe(":", "+:", "-:"):
                    self.expr()
                self.want("]")
            elif self.is_(".") and self.kind(1) == "name" and (free or self.toks[self.at + 1][1] != "size"):
                self.at += 2
            else:
                return

    def primary(self):
        at, start = self.place(), self.at
        k, v, _ = self.toks[self.at]
        if k == "number":
            self.at += 1
            return "%d:n%d" % (at, width(v))
        if k == "name":
            text = self.ref()
            bare = self.at
            if self.maybe("("):
                if not self.maybe(")"):
                    self.many(self.expr)
                    self.want(")")
            else:
                self.selects(False)
                if self.is_(".") and self.kind(1) == "name" and self.toks[self.at + 1][1] == "size":
                    self.at += 2
                    if self.is_("(") and self.is_(")", 1):
                        self.at += 2
            return text if self.at == bare else "%d:e" % at
        if k == "system":
            self.at += 1
            if v == "$time":
                return "%d:e" % at
            if v in ("$signed", "$unsigned"):
                self.want("(")
                self.expr()
                self.want(")")
                return "%d:e" % at
            raise No
        if self.maybe("("):
            e = self.expr()
            self.want(")")
            return e
        if self.maybe("{"):
            self.expr()
            if self.maybe("{"):
                self.many(self.expr)
                self.want("}")
            else:
                while self.maybe(","):
                    self.expr()
            self.want("}")
            return "%d:e" % at
        if self.maybe("'{"):
            def keyed():
                if self.kind() == "name" or self.is_("default"):
                    self.at += 1
                    self.want(":")
                    self.expr()
                else:
                    raise No

            if self.tries(lambda: (self.many(keyed), self.want("}"))) is None:
                self.many(self.expr)
                self.want("}")
            return "%d:e" % at
        del start
        raise No

    def operand(self):
        at = self.place()
        if self.maybe(*UNARY):
            self.operand()
            return "%d:e" % at
        return self.primary()

    def chain(self, level):
        if level == len(BINARY):
            return self.operand()
        at, e = self.place(), self.chain(level + 1)
        while self.maybe(*BINARY[level].split()):
            self.chain(level + 1)
            e = "%d:e" % at
        return e

    def expr(self):
        at, e = self.place(), self.chain(0)
        if self.maybe("?"):
            self.expr()
            self.want(":")
            self.expr()
            return "%d:e" % at
        return e

    # ---- statements, of which the text tells the kind

    def left(self):
        at, text = self.place(), self.ref()
        bare = self.at
        self.selects(True)
        return text if self.at == bare else "%d:e" % at

    def label(self):
        if self.maybe(":"):
            self.name()

    def paren(self):
        self.want("(")
        self.expr()
        self.want(")")

    def value(self):
        if self.maybe("="):
            self.expr()
        elif not self.maybe("++", "--"):
            if not self.maybe(*"+ - * / % & | ^ << >> >>>".split()):
                raise No
            self.want("=")
            self.expr()

    def stmt(self):
        if self.maybe(";"):
            return "null"
        if self.maybe("begin"):
            self.label()
            while not self.maybe("end"):
                self.stmt()
            self.label()
            return "block"
        if self.maybe("if"):
            self.paren()
            self.stmt()
            if self.maybe("else"):
                self.stmt()
            return "if"
        if self.maybe("case"):
            self.paren()
            while not self.is_("default") and not self.is_("endcase"):
                self.many(self.expr)
                self.want(":")
                self.stmt()
            if self.maybe("default"):
                self.maybe(":")
                self.stmt()
            self.want("endcase")
            return "stmt"
        if self.maybe("while", "repeat", "wait"):
            self.paren()
            self.stmt()
            return "stmt"
        if self.maybe("for"):
            self.want("(")
            self.maybe("int")
            self.name()
            self.want("=")
            self.expr()
            self.want(";")
            self.expr()
            self.want(";")
            self.name()
            self.value()
            self.want(")")
            self.stmt()
            return "stmt"
        if self.maybe("forever"):
            self.stmt()
            return "stmt"
        if self.maybe("foreach"):
            self.want("(")
            self.name()
            self.want("[")
            self.name()
            self.want("]")
            self.want(")")
            self.stmt()
            return "stmt"
        if self.maybe("#"):
            if self.kind() == "number":
                self.at += 1
            elif self.kind() == "name":
                self.ref()
            else:
                self.paren()
            self.stmt()
            return "delay"
        if self.maybe("@"):
            if self.kind() == "name":
                self.at += 1
            elif not self.maybe("*"):
                self.want("(")
                if not self.maybe("*"):
                    while True:
                        self.maybe("posedge", "negedge")
                        self.expr()
                        if not self.maybe("or", ","):
                            break
                self.want(")")
            self.stmt()
            return "event"
        if self.maybe("return"):
            if not self.is_(";"):
                self.expr()
            self.want(";")
            return "return"
        if self.maybe("break", "continue"):
            self.want(";")
            return "stmt"
        if self.kind() == "system":
            what = self.toks[self.at][1]
            self.at += 1
            if what == "$display":
                if self.maybe("(") and not self.maybe(")"):
                    if self.kind() != "text":
                        raise No
                    self.at += 1
                    while self.maybe(","):
                        self.expr()
                    self.want(")")
            elif what == "$finish":
                if self.maybe("("):
                    if self.kind() == "number":
                        self.at += 1
                    self.want(")")
            else:
                raise No
            self.want(";")
            return "stmt"

        def call():
            self.ref()
            self.want("(")
            if not self.maybe(")"):
                self.many(self.expr)
                self.want(")")
            self.want(";")
            return "call"

        done = self.tries(call)
        if done:
            return done
        self.left()
        if self.maybe("<="):
            self.expr()
            self.want(";")
            return "nonblocking"
        self.value()
        self.want(";")
        return "assign"

    # ---- types and declared names

    def range_(self):
        self.want("[")
        a = self.expr()
        self.want(":")
        b = self.expr()
        self.want("]")
        return "[%s..%s]" % (a, b)

    def dim(self):
        whole = self.tries(self.range_)
        if whole:
            return whole
        self.want("[")
        a = self.expr()
        self.want("]")
        return "[%s]" % a

    def sign(self):
        return {None: "", "signed": "+", "unsigned": "-"}[self.maybe("signed", "unsigned")]

    def maybe_range(self):
        return self.range_() if self.is_("[") else ""

    def type_(self):
        at = self.place()
        word = self.maybe("logic", "reg", "bit")
        if word:
            return "%d:%s%s%s" % (at, word, self.sign(), self.maybe_range())
        word = self.maybe(*INT_WORDS)
        if word:
            return "%d:%s%s" % (at, word, self.sign())
        if self.maybe("struct"):
            self.want("{")
            out = ""
            while not self.maybe("}"):
                kind = self.type_()
                for what in self.many(self.item):
                    out += "%s %s;" % (kind, what)
                self.want(";")
            return "%d:{%s}" % (at, out)
        return self.ref()

    def itype(self):
        at = self.place()
        if self.is_("signed") or self.is_("unsigned"):
            return "%d:logic%s%s" % (at, self.sign(), self.maybe_range())
        if self.is_("["):
            return "%d:logic%s" % (at, self.range_())
        return self.type_()

    def typed(self, rest):
        """An optional type, and what the rule reads after it."""
        was = self.at
        try:
            kind = self.itype()
            return kind, rest()
        except No:
            self.at = was
            return None, rest()

    def dims(self):
        out = ""
        while self.is_("[") and not self.is_("]", 1):
            out += self.dim()
        return out

    def item(self):
        n = self.name()
        return n + self.dims()

    def start(self):
        return "=" + self.expr() if self.maybe("=") else ""

    # ---- items

    def bit(self, name):
        return name.split(":")[0] + ":logic"

    def import_(self):
        self.want("import")

        def one():
            n = self.name()
            self.want("::")
            if self.maybe("*"):
                return "import %s::*" % n
            return "import %s::%s" % (n, self.name().split(":")[1])

        out = self.many(one)
        self.want(";")
        return out

    def given(self):
        n = self.name()
        self.want("=")
        return n, "%s=%s" % (n, self.expr())

    def params(self):
        word = self.maybe("parameter", "localparam")
        if not word:
            raise No
        kind, names = self.typed(lambda: (self.many(self.given), self.want(";"))[0])
        return ["%s:%s %s %s" % (n.split(":")[0], word, kind or "_", what) for n, what in names]

    def typedef(self):
        self.want("typedef")
        kind, what = self.type_(), self.item()
        self.want(";")
        return ["%s:typedef %s %s" % (what.split(":")[0], kind, what)]

    def nettype(self):
        self.want("nettype")
        kind, n = self.type_(), self.name()
        out = "nettype %s %s" % (kind, n)
        if self.maybe("with"):
            out += " with " + self.ref()
        self.want(";")
        return [out]

    def function(self):
        self.want("function")
        own = "own " if self.maybe("automatic", "static") and self.toks[self.at - 1][1] == "automatic" else ""

        def head():
            n = self.name()
            self.want("(")
            return n

        at = self.place()
        if self.maybe("void"):
            kind, n = "%d:void" % at, head()
        else:
            kind, n = self.typed(head)
        args = ""
        if not self.maybe(")"):
            def one():
                self.maybe("input")
                of, what = self.type_(), self.item()
                if self.maybe("["):
                    self.want("]")
                    return "%s %s[];" % (of, what)
                return "%s %s;" % (of, what)

            args = "".join(self.many(one))
            self.want(")")
        self.want(";")
        body = ""

        def local():
            self.maybe("automatic")
            of, what = self.type_(), self.item()
            v = self.start()
            self.want(";")
            return "%s %s%s;" % (of, what, v)

        while True:
            v = self.tries(local)
            if v is None:
                break
            body += v
        while not self.maybe("endfunction"):
            body += self.stmt() + ";"
        self.label()
        return ["function %s%s %s(%s){%s}" % (own, kind or self.bit(n), n, args, body)]

    def pkgitem(self):
        for rule in (self.import_, self.params, self.typedef, self.nettype, self.function):
            out = self.tries(rule)
            if out is not None:
                return out
        raise No

    def net(self):
        if self.maybe("interconnect"):
            out = ["%s:net link %s %s" % (n.split(":")[0], self.bit(n), n) for n in self.many(self.name)]
            self.want(";")
            return out
        if not self.maybe("wire", "tri"):
            raise No

        def one():
            n = self.name()
            return n, n + self.start()

        kind, names = self.typed(lambda: (self.many(one), self.want(";"))[0])
        return ["%s:net wire %s %s" % (n.split(":")[0], kind or self.bit(n), what) for n, what in names]

    def var(self):
        self.maybe("var")
        kind = self.type_()

        def one():
            w = self.item()
            return w.split(":")[0], w + self.start()

        names = self.many(one)
        self.want(";")
        return ["%s:var %s %s" % (at, kind, what) for at, what in names]

    def assign(self):
        self.want("assign")

        def one():
            at, a = self.place(), self.left()
            self.want("=")
            return "%d:assign %s = %s" % (at, a, self.expr())

        out = self.many(one)
        self.want(";")
        return out

    def conns(self):
        at = self.place()
        self.want("(")
        if self.maybe(")"):
            return "()"
        out = ""
        if self.is_("."):
            def one():
                at = self.place()
                self.want(".")
                n = self.name()
                v = n
                if self.maybe("("):
                    v = "_" if self.is_(")") else self.expr()
                    self.want(")")
                return "%d:.%s=%s;" % (at, n.split(":")[1], v)

            out = "".join(self.many(one))
        else:
            while True:
                if self.is_(",") or self.is_(")"):
                    out += "%d:_;" % at
                else:
                    here = self.place()
                    out += "%d:%s;" % (here, self.expr())
                at = self.place()
                if not self.maybe(","):
                    break
        self.want(")")
        return "(%s)" % out

    def instance(self):
        of = self.name()
        params = self.conns() if self.maybe("#") else "()"

        def one():
            n = self.name()
            return "instance %s #%s %s%s" % (of, params, n, self.conns())

        out = self.many(one)
        self.want(";")
        return out

    def procedure(self):
        at = self.place()
        word = self.maybe("initial", "always", "always_comb", "always_ff")
        if not word:
            raise No
        return ["%d:%s %s" % (at, word.replace("always_", ""), self.stmt())]

    def moditem(self):
        for rule in (self.pkgitem, self.net, self.var, self.assign, self.instance, self.procedure):
            out = self.tries(rule)
            if out is not None:
                return out
        raise No

    def port(self, before):
        way = self.maybe("input", "output", "inout")
        kind = self.maybe("wire", "tri", "var", "interconnect")

        def rest():
            n = self.name()
            d = self.dims()
            if not self.is_(",") and not self.is_(")"):
                raise No
            return n, d

        of, (n, d) = self.typed(rest)
        if not (way or kind or of or d) and before:
            return before[:3] + (n + d,)
        went = {"input": "in", "output": "out", "inout": "inout", None: before[0] if before else "inout"}[way]
        if kind:
            what = {"wire": "wire", "tri": "wire", "var": "var", "interconnect": "link"}[kind]
        else:
            what = "wire" if went == "out" and not of else "any"
        return went, what, of or self.bit(n), n + d

    def module(self):
        self.want("module")
        n, items = self.name(), []
        while self.is_("import"):
            items += self.import_()
        params = ""
        if self.maybe("#"):
            self.want("(")
            before = None
            while True:
                word = self.maybe("parameter")
                kind, (_, what) = self.typed(self.given)
                before = kind if word or kind else before
                params += "%s %s;" % (before or "_", what)
                if not self.maybe(","):
                    break
            self.want(")")
        ports = ""
        if self.maybe("("):
            if not self.maybe(")"):
                before = None
                while True:
                    before = self.port(before)
                    went, what, of, name = before
                    ports += "%s:%s %s %s %s;" % (name.split(":")[0], went, what, of, name)
                    if not self.maybe(","):
                        break
                self.want(")")
        self.want(";")
        while not self.maybe("endmodule"):
            items += self.moditem()
        self.label()
        return ["module %s #(%s) (%s) { %s}" % (n, params, ports, "".join(i + "; " for i in items))]

    def package(self):
        self.want("package")
        n = self.name()
        self.want(";")
        items = []
        while not self.maybe("endpackage"):
            items += self.pkgitem()
        self.label()
        return ["package %s { %s}" % (n, "".join(i + "; " for i in items))]

    def source(self):
        items = []
        while self.kind() != "end":
            if self.is_("module"):
                items += self.module()
            elif self.is_("package"):
                items += self.package()
            else:
                items += self.pkgitem()
        return "".join(i + "; " for i in items)


def spot(text, at):
    return "%d:%d" % (text.count("\n", 0, at) + 1, at - (text.rfind("\n", 0, at) + 1) + 1)


def told(line):
    text = line.replace("\t", "\n")
    p = Parser(text)
    for kind, _, at in p.toks:
        if kind == "out":
            return "S3 " + spot(text, at)
    try:
        return p.source()
    except No:
        return "S1 1:1"


def main():
    if len(sys.argv) > 1:
        for line in open(sys.argv[1], encoding="utf-8"):
            line = line.rstrip("\n")
            print("%s => %s" % (line, told(line)))
        return 0
    wrong = count = 0
    for line in open("crates/nt_show_units/stdout", encoding="utf-8"):
        text, _, given = line.rstrip("\n").partition(" => ")
        count += 1
        # limits of depth and of chains are not worked out here
        if given != told(text) and not (given == "S1 1:1" and re.search(r"\({65}|(\+1){65}", text)):
            wrong += 1
            print("differs: " + text)
            print("  here " + told(text))
    print("%d of %d differ" % (wrong, count))
    return 1 if wrong else 0


sys.exit(main())
