"""Design texts of any number of nodes, of all forms in a mix that is the same at each run."""

PINS = [("a", 1), ("b", 8), ("c", 16), ("d", 32), ("e", 64)]
WIDTHS = [width for _, width in PINS]
REGISTERS = [1, 8, 16, 32, 64, 32, 8, 1]
MEMORIES = [(32, 256), (8, 4096)]
PORTS = [("xtc_edge", 1), ("y", 64), ("xtc_p0_req", 1), ("xtc_p0_fn", 8), ("xtc_p0_arg0", 32)]
NEAR = 40  # operands are among so many of the latest nodes of a width


def declared(width):
    return "" if width == 1 else f"[{width - 1}:0] "


def constant(width, value, mark="h"):
    return f"{width}'{mark}{value % 2**width:0{(width + 3) // 4}x}"


class Mix:
    """Numbers that look mixed."""

    def __init__(self):
        self.state = 1

    def below(self, bound):
        self.state = (self.state * 6364136223846793005 + 1442695040888963407) % 2**64
        return (self.state >> 33) % bound

    def one_of(self, items):
        return items[self.below(len(items))]


class Nodes:
    """The node lines of a design, and the names of the nodes of each width."""

    def __init__(self, count):
        self.mix = Mix()
        self.lines = []
        self.named = {width: [] for width in WIDTHS}
        self.up = self.add(1, "1'h1")
        self.add_sources()
        while len(self.lines) < count:
            self.add(*self.mix.one_of(self.forms()))

    def add(self, width, form):
        name = f"xtc_n{len(self.lines)}"
        self.lines.append(f"  wire {declared(width)}{name} = {form};")
        self.named[width].append(name)
        return name

    def add_sources(self):
        for name, width in PINS:
            self.add(width, name)
        for i, width in enumerate(REGISTERS):
            self.add(width, f"xtc_r{i}")
        self.add(1, "xtc_p0_ack")
        self.add(32, "xtc_p0_ret0")

    def one(self, width):
        return self.mix.one_of(self.named[width][-NEAR:])

    def forms(self):
        """One node of each form, of some width, with its operands."""
        width = self.mix.one_of(WIDTHS)
        a, b, c = self.one(width), self.one(width), self.one(1)
        by = self.one(self.mix.one_of(WIDTHS))
        k = constant(width, 2 * self.mix.below(2 ** (width - 1)) + 1)
        signed_k = k.replace("'h", "'sh")
        memory = self.mix.below(len(MEMORIES))
        return [
            *((width, f"{a} {sign} {b}") for sign in "&|^+-*"),
            *((width, f"{a} {sign} {k}") for sign in "/%"),
            *((width, f"$signed({a}) {sign} {signed_k}") for sign in "/%"),
            *((width, f"{a} {sign} {by}") for sign in ("<<", ">>")),
            (width, f"$signed({a}) >>> {by}"),
            (width, f"~{a}"),
            (width, f"{c} ? {a} : {b}"),
            (width, k),
            (1, f"{a} == {b}"),
            (1, f"{a} < {b}"),
            (1, f"$signed({a}) < $signed({b})"),
            (1, f"^{a}"),
            (8, f"{{8{{{c}}}}}"),
            (16, f"{{{self.one(8)}, {self.one(8)}}}"),
            (32, f"{self.one(64)}[47:16]"),
            (MEMORIES[memory][0], f"xtc_m{memory}[{by}]"),
        ]


def head():
    yield "// xtc design 1"
    yield "// processes 1"
    yield "// function f in 32 out 32"
    yield "module xtc_design ("
    yield "  input wire xtc_clk,"
    for name, width in [*PINS, ("xtc_p0_ack", 1), ("xtc_p0_ret0", 32)]:
        yield f"  input wire {declared(width)}{name},"
    for place, (name, width) in enumerate(PORTS, 1):
        yield f"  output wire {declared(width)}{name}{',' if place < len(PORTS) else ''}"
    yield ");"
    for i, width in enumerate(REGISTERS):
        yield f"  reg {declared(width)}xtc_r{i} = {constant(width, i)};"
    for i, (width, words) in enumerate(MEMORIES):
        yield f"  reg {declared(width)}xtc_m{i} [0:{words - 1}];"


def tail(nodes):
    """The request is always up, so that no tick is refused."""
    for name, width in PORTS:
        yield f"  assign {name} = {nodes.up if name == 'xtc_p0_req' else nodes.one(width)};"
    yield "  always @(posedge xtc_clk) begin"
    for i, width in enumerate(REGISTERS):
        yield f"    xtc_r{i} <= {nodes.one(width)};"
    for i, (width, _) in enumerate(MEMORIES):
        yield f"    if ({nodes.one(1)}) xtc_m{i}[{nodes.one(8)}] <= {nodes.one(width)};"
    yield "  end"
    yield "endmodule"


def design(count):
    """The text of a design with so many nodes, and with registers, memories and a host."""
    nodes = Nodes(count)
    return "".join(f"{line}\n" for line in [*head(), *nodes.lines, *tail(nodes)])
