"""A mangled symbol without substitutions: each `S_`, `S0_`, .. is replaced by the bytes that it stands for. This reads
symbols by the ABI's grammar, and knows nothing of their meaning."""
import re

OFFSET = r"(?:hn?\d+_|vn?\d+_n?\d+_)"
DISCRIMINATOR = r"(?:__\d+_|_\d|\d+$)?"
PARAMETER = r"T(?:L\d+_)?\d*_"
DECLARED = "T[yntpk]"
# The codes of operators, by their operands: one expression, two, three, a type, a type and an expression.
ONE = "(?:gs)?d[la]|ad|co|de|ng|nt|ps|mm_?|pp_?|az|sz|te|nx|sp|tw"
TWO = "a[NSan]|cm|d[Vvst]|eO|eo|eq|g[et]|ix|l[Sest]|m[ILil]|ne|o[Ror]|p[Llmt]|r[MSms]|ss"
THREE = "qu"
TYPE = "at|st|ti"
CAST = "cc|dc|rc|sc"


class Unknown(Exception):
    """The symbol isn't one, or has something that isn't read here. It stands in front of `rest`."""

    def __init__(self, rest):
        super().__init__(rest)
        self.rest = rest


class Reader:
    """Reads a symbol from its front. Each method returns what it has read, written out. The options change what is
    written:
    counts: what stands in `sr` and `N` is counted as g++ does it: as a type, whose names are substitutions
    plain: the additions are left out
    listed: the class in `sr` that g++ writes as a type is a list of names
    padded: lists of arguments have more of them
    vendors: complex and imaginary types have a qualifier of a vendor in the place of their letter"""

    def __init__(self, symbol, counts=False, plain=False, listed=False, padded=False, vendors=False):
        self.symbol = symbol
        self.listed = listed
        self.padding = "iiiiiiii" if padded else ""
        self.vendors = vendors
        self.counts = counts
        self.plain = plain
        self.additions = set()
        self.at = 0
        self.saved = []  # what `S_`, `S0_`, .. stand for; names without the `N` and `E` around them
        self.nested = set()  # the names that need these where they stand alone
        self.args = []  # the last arguments
        self.modules = set()  # the names of modules among these

    def comes(self, pattern):
        return re.compile(pattern).match(self.symbol, self.at)

    def take(self, pattern):
        found = self.comes(pattern)
        if not found:
            raise Unknown(self.symbol[self.at:])
        self.at = found.end()
        return found.group()

    def until(self, end, read):
        text = ""
        while not self.comes(end):
            text += read()
        return text + self.take(end)

    def save(self, text):
        self.saved.append(text)
        return text

    def addition(self, name, text):
        """What no type of the symbol depends on, by C++20 or an extension."""
        if text:
            self.additions.add(name)
        return "" if self.plain else text

    def alone(self, name):
        return f"N{name}E" if name in self.nested else name

    def substitution(self):
        if self.comes("S[absiod]"):
            text = self.take("S.")
            return self.save(text + self.tags()) if self.comes("B") else text
        number = self.take("S[0-9A-Z]*_")[1:-1]
        index = int(number, 36) + 1 if number else 0
        if index >= len(self.saved):
            raise Unknown(self.symbol[self.at:])
        return self.saved[index]

    def encoding(self):
        if self.comes(f"T(?:c{OFFSET})?{OFFSET}|GT[tn]"):
            return self.take(f"T(?:c{OFFSET})?{OFFSET}|GT[tn]") + self.encoding()
        if self.comes("TC"):
            return self.take("TC") + self.type() + self.take(r"\d+_") + self.type()
        if self.comes("T[VTIS]"):
            return self.take("..") + self.type()
        if self.comes("TA"):
            return self.take("TA") + self.template_arg()
        if self.comes("GI"):
            return self.take("GI") + self.module()
        if self.comes("T[WH]|G[VR]"):
            code = self.take("..")
            return code + self.name() + (self.take("(?:[0-9A-Z]*_)?") if code == "GR" else "")
        text = self.name()
        if self.comes("Ua9enable_ifI"):
            text += self.addition("an attribute `enable_if`", self.take("Ua9enable_if") + self.template_args())
        while self.comes("[^E._Q]"):
            text += self.type()
        return text + self.constraint()

    def constraint(self):
        return self.addition("a constraint", self.take("Q") + self.expression()) if self.comes("Q") else ""

    def name(self):
        if self.comes("N"):
            return self.nested_name()
        if self.comes("Z"):
            return self.local_name()
        text = self.take("(?:St)?")
        if self.comes("S") and not self.comes_module():
            text += self.alone(self.substitution())
        else:
            text += self.unqualified_name()
            if self.comes("I"):
                self.save(text)
        return text + (self.template_args() if self.comes("I") else "")

    def nested_name(self):
        front = self.take("N") + self.addition("an explicit object parameter", self.take("H?"))
        front, text = front + self.take("r?V?K?[RO]?"), self.take("(?:St)?")
        if self.comes("S") and not self.comes_module():
            text = self.substitution()
            if text.startswith(("N", "Z")):
                raise Unknown(self.symbol[self.at:])
        nested, first = text in self.nested, True
        while first or not self.comes("E"):
            first = False
            nested |= text not in ("", "St") and not self.comes("I")
            text += self.component()
            if nested:
                self.nested.add(text)
            if not self.comes("E"):
                self.save(text)
        return front + text + self.take("E")

    def component(self):
        if self.comes("I"):
            return self.template_args()
        if self.comes(PARAMETER):
            return self.take(PARAMETER)
        if self.comes("D[tT]"):
            return self.decltype()
        return self.unqualified_name() + self.take("M?")

    def local_name(self):
        text = self.take("Z") + self.encoding() + self.take("E")
        if self.comes("s"):
            return text + self.take("s" + DISCRIMINATOR)
        return text + self.take(r"(?:d\d*_)?") + self.name() + self.take(DISCRIMINATOR)

    def source_name(self):
        length = self.take(r"[1-9]\d*")
        return length + self.take(f".{{{length}}}")

    def comes_module(self):
        """Whether a substitution comes, and is the name of a module."""
        start, saved = self.at, self.comes("S[0-9A-Z]*_") and self.substitution()
        self.at = start
        return saved in self.modules

    def module(self):
        text = self.substitution() if self.comes("S") else ""
        while self.comes("W"):
            text = self.save(text + self.take("WP?") + self.source_name())
            self.modules.add(text)
        return text

    def tags(self):
        text = ""
        while self.comes("B"):
            text += self.take("B") + self.source_name()
        return text

    def unqualified_name(self):
        text = self.module() + self.addition("a friend", self.take("F?")) + self.take("L?")
        if self.comes("[1-9]"):
            text += self.source_name()
        elif self.comes("DC"):
            text += self.take("DC") + self.until("E", self.source_name)
        elif self.comes("Ul"):
            text += self.closure()
        elif self.comes("cv"):
            text += self.take("cv") + self.type(bare=True)
        elif self.comes("CI"):
            text += self.take("CI[1-5]") + self.name()
        elif self.comes(r"li|v\d"):
            text += self.take("..") + self.source_name()
        else:
            text += self.take(r"U[tb]\d*_|[CD][0-5]|[a-z][a-zA-Z]")
        return text + self.tags()

    def closure(self):
        text = self.take("Ul")
        while self.comes(DECLARED):
            text += self.declaration()
        text += self.constraint()
        while not self.comes("[EQ]"):
            text += self.type()
        return text + self.constraint() + self.take(r"E\d*_")

    def declaration(self):
        code = self.take(DECLARED)
        if code == "Tk":
            return code + self.name()
        if code == "Tn":
            return code + self.type()
        if code == "Tt":
            return code + self.until("E", lambda: self.declaration() + self.constraint())
        return code + (self.declaration() if code == "Tp" else "")

    def template_args(self):
        text, args = self.take("I"), []
        while not self.comes("E"):
            args.append(self.template_arg() + self.constraint())
        self.args = args
        return text + "".join(args) + self.padding + self.take("E")

    def template_arg(self):
        if self.comes("J"):
            return self.take("J") + self.until("E", self.template_arg)
        if self.comes(DECLARED):
            return self.addition("a declared template parameter", self.declaration()) + self.template_arg()
        if self.comes("X"):
            return self.take("X") + self.expression() + self.take("E")
        if self.comes("LZ"):
            return self.take("LZ") + self.encoding() + self.take("E")
        return self.literal() if self.comes("L") else self.type()

    def literal(self):
        if self.comes("L_Z"):
            return self.take("L_Z") + self.encoding() + self.take("E")
        if self.comes("LUl"):
            return self.take("L") + self.closure() + self.take("E")
        if self.comes("L[defg]"):
            return self.take("L.[0-9a-f]+E")
        return self.take("L") + self.type() + self.take(r"(?:n?\d+)?E")

    # Expressions.

    def expression(self):
        if self.comes("(?:gs)?n[wa]"):
            text = self.take("(?:gs)?n[wa]") + self.until("_", self.expression) + self.type()
            return text + (self.take("pi") + self.until("E", self.expression) if self.comes("pi") else self.take("E"))
        if self.comes(ONE):
            return self.take(ONE) + self.expression()
        if self.comes(TWO):
            return self.take(TWO) + self.expression() + self.expression()
        if self.comes(THREE):
            return self.take(THREE) + self.expression() + self.expression() + self.expression()
        if self.comes(TYPE):
            return self.take(TYPE) + self.type()
        if self.comes(CAST):
            return self.take(CAST) + self.type() + self.expression()
        if self.comes("cl"):
            return self.take("cl") + self.until("E", self.expression)
        if self.comes("cv"):
            text = self.take("cv") + self.type(bare=True)
            return text + (self.take("_") + self.until("E", self.expression) if self.comes("_") else self.expression())
        if self.comes("r[qQ]"):
            text = self.take("r.")
            return text + (self.until("_", self.type) if text == "rQ" else "") + self.until("E", self.requirement)
        if self.comes("L"):
            return self.literal()
        if self.comes(PARAMETER):
            return self.take(PARAMETER)
        if self.comes(r"fp|fL\d"):
            return self.take(r"fpT|f(?:L\d+)?pr?V?K?\d*_")
        if self.comes("f[lrLR]"):
            code = self.take("f[lrLR]")
            return code + self.take(TWO) + self.expression() + (self.expression() if code in ("fL", "fR") else "")
        if self.comes("il"):
            return self.take("il") + self.until("E", self.braced)
        if self.comes("tl"):
            return self.take("tl") + self.type() + self.until("E", self.braced)
        if self.comes("sZ"):
            return self.take("sZ") + self.expression()
        if self.comes("sP"):
            return self.take("sP") + self.until("E", self.template_arg)
        if self.comes("mc|so"):
            return self.take("mc|so") + self.type() + self.expression() + self.take(r"(?:n?\d+)?(?:_\d*)*p?E")
        if self.comes("tr"):
            return self.take("tr")
        if self.comes("u8__uuidof[tz]"):
            code = self.take("u8__uuidof.")
            return code + (self.type() if code.endswith("t") else self.expression())
        if self.comes("u"):
            return self.take("u") + self.source_name() + self.until("E", self.template_arg)
        return self.take(r"(?:gs(?=sr\d|on|dn|\d))?") + (self.qualified() if self.comes("sr") else self.base_name())

    def braced(self):
        if self.comes("di"):
            return self.take("di") + self.source_name() + self.braced()
        if self.comes("d[xX]"):
            code = self.take("d.")
            return code + self.expression() + (self.expression() if code == "dX" else "") + self.braced()
        return self.expression()

    def requirement(self):
        if self.comes("X"):
            text = self.take("X") + self.expression() + self.take("N?")
            return text + (self.take("R") + self.name() if self.comes("R") else "")
        return self.take("T") + self.type() if self.comes("T") else self.take("Q") + self.expression()

    def qualified(self):
        """`sr`, the class, and the name in it. A class that is a substitution is written out as a type, in `N` and `E`
        if it is a name."""
        if self.comes(r"sr\d"):
            return self.take("sr") + self.until("E", self.simple_id) + self.base_name()
        if self.comes(r"sr(?:St|NSt|N\d)") or self.counts and self.comes("srN"):
            text, name = self.take("sr"), self.type()
            if self.listed:
                name = re.sub("^St", "3std", name[1:] if name.startswith("N") else name + "E")
            return text + name + self.base_name()
        listed = self.take("srN?") == "srN"
        inside = False
        if self.comes("T"):
            name = self.save(self.take(PARAMETER))
        elif self.comes("D"):
            name = self.save(self.decltype())
        else:
            name = self.substitution()
            inside = name[0] in "123456789" or name in self.nested
        name += self.template_args() if self.comes("I") else ""
        if listed or inside:
            name = f"N{name}" + (self.until("E", self.simple_id) if listed else "E")
        return f"sr{name}" + self.base_name()

    def simple_id(self):
        return self.source_name() + (self.template_args() if self.comes("I") else "")

    def base_name(self):
        if self.comes(r"dn\D"):
            text = self.take("dn")
            if self.comes("T"):
                return text + self.save(self.take(PARAMETER))
            return text + (self.save(self.decltype()) if self.comes("D") else self.alone(self.substitution()))
        if self.comes(r"(?:dn)?\d"):
            return self.take("(?:dn)?") + self.simple_id()
        text = self.take("(?:on)?")
        return text + self.unqualified_name() + (self.template_args() if self.comes("I") else "")

    def decltype(self):
        return self.take("D[tT]") + self.expression() + self.take("E")

    # Types.

    def size(self):
        """A number, an expression or nothing, and `_`."""
        return self.take(r"\d*") + (self.expression() if not self.comes("_") else "") + self.take("_")

    def type(self, bare=False):
        """A type. With `bare`, template arguments behind a parameter or a substitution at its end aren't its."""
        if self.comes("[a-os-tv-z]"):
            return self.take(".")
        if self.comes("D[acdefhinsu]"):
            return self.take("..")
        if self.comes("D[kK]"):
            return self.take("..") + self.name()
        if self.comes("DF"):
            return self.take(r"DF\d+(?:_|b|x)")
        if self.comes("S(?!t)") and not self.comes_module():
            name = self.substitution()
            if bare or not self.comes("I"):
                return self.alone(name)
            args = self.template_args()
            if name in self.nested:
                self.nested.add(name + args)
            return self.alone(self.save(name + args))
        if self.comes("[1-9LNSWZpq]"):
            name = self.name()
            return self.alone(self.save(name[1:-1] if re.match("N[^rVKROH]", name) else name))
        if self.comes("T[sue]"):
            return self.save(self.take("T.") + self.name())
        if self.comes("T"):
            text = self.save(self.take(PARAMETER))
            return self.save(text + self.template_args()) if self.comes("I") and not bare else text
        if self.comes("u"):
            text = self.take("u") + self.source_name()
            return self.save(text + (self.template_args() if self.comes("I") else ""))
        if self.comes("U"):
            return self.save(self.qualified_type(bare))
        if self.comes("r?V?K?(?:D[oOwx])?F|r?V?K?D[oOwx]"):
            text = self.take("r?V?K?(?:Do|DO|Dw)?")
            text += self.expression() + self.take("E") if text.endswith("DO") else ""
            text += self.until("E", self.type) if text.endswith("Dw") else ""
            text += self.take("(?:Dx)?FY?") + self.type() + self.take("(?:v(?=[RO]?E))?")
            return self.save(text + self.until("[RO]?E", self.parameter))
        if self.comes("D[tT]"):
            return self.save(self.decltype())
        if self.comes("D[BU]"):
            return self.take("D.") + self.size()
        if self.comes("A|Dv"):
            text = self.take("A|Dv") + self.size()
            return self.save(text + (self.take("p") if self.comes("p") and text.startswith("Dv") else self.type(bare)))
        if self.vendors and self.comes("[CG]"):
            return self.save(("U7complex" if self.take(".") == "C" else "U9imaginary") + self.type(bare))
        if self.comes("[rVK]|[PROCG]|Dp"):
            return self.save(self.take("(?=[rVK])r?V?K?|[PROCG]|Dp") + self.type(bare))
        return self.save(self.take("M") + self.type() + self.type(bare))

    def parameter(self):
        if self.comes("v"):
            raise Unknown(self.symbol[self.at:])
        return self.type()

    def qualified_type(self, bare):
        """Qualifiers and a type. Those of vendors aren't saved apart from what stands around them."""
        if not self.comes("U"):
            return self.take("r?V?K?") + self.type(bare)
        text = self.take("U") + self.source_name() + (self.template_args() if self.comes("I") else "")
        return text + self.qualified_type(bare)


def read(symbol, **options):
    """The symbol without substitutions, and its additions. Raises `Unknown` where something of it isn't read. The
    options are those of `Reader`."""
    reader = Reader(symbol, **options)
    return reader.take("_Z") + reader.encoding() + reader.take(r"(?:\..*)?$"), reader.additions


def written_out(symbol, **options):
    """The symbol without substitutions, or itself if it isn't read."""
    try:
        return read(symbol, **options)[0]
    except Unknown:
        return symbol


def additions(symbol):
    """What `read` calls additions, if it reads the symbol."""
    try:
        return read(symbol)[1]
    except Unknown:
        return set()


def plain(symbol):
    """The symbol without substitutions and additions, if it has additions."""
    return written_out(symbol, plain=True) if additions(symbol) else symbol


def listed(symbol):
    """The symbol without substitutions, where g++ writes a class in `sr` as a type with names in a list."""
    return written_out(symbol, listed=True)


def in_conversions(symbol):
    """The symbol of a conversion without substitutions, also without those that have letters and arguments."""
    long = written_out(symbol)
    if re.search("cv.*S[ab]I", long):
        return long.replace("SaI", "St9allocatorI").replace("SbI", "St12basic_stringI")
    return symbol


def bound(symbol):
    """The symbol without substitutions, and with the arguments of its name where parameters stand in front of these or
    among them."""
    reader = Reader(symbol)
    try:
        front = reader.take("_Z") + reader.name()
    except Unknown:
        return symbol
    args = {}

    def bind(text, but=None):
        return re.sub(r"T\d*_", lambda found: found[0] if found[0] == but else args.get(found[0], found[0]), text)
    for number, text in enumerate(reader.args):
        args[f"T{number - 1 if number else ''}_"] = bind(text)
    inner = "".join(map(bind, reader.args, args))
    before, _, behind = front.rpartition(f"I{''.join(reader.args)}E")
    return bind(before) + f"I{inner}E" + behind + written_out(symbol)[len(front):]


def local(symbol):
    """The symbol that what stands in a function would have without the function, or the symbol itself."""
    reader = Reader(symbol)
    try:
        reader.take("_ZZ")
        reader.encoding()
        reader.take(r"E(?:d\d*_)?")
        return "_Z" + reader.encoding() + reader.take("$")
    except Unknown:
        return symbol
