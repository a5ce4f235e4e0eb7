"""Sources of a given size for the front: preprocessor, lexer and parser."""

LIMIT = 4_194_304  # the greatest text
DEEP = 120  # how many parts stand in one another in the sources that are deep


def repeated(head, part, tail, size):
    """A head, a part as often as the size allows, and a tail."""
    return head + part * ((size - len(head) - len(tail)) // len(part)) + tail


def process(part, size):
    """One process, with a part again and again."""
    return repeated("module m(input clk);\ninitial begin\n", part, "end\nendmodule\n", size)


def statements(size):
    """Assignments of all kinds, tests, enables and calls."""
    return process(
        "x <= a + b * c - 8'h1f; if (en) begin y[3:0] <= {a, b[1]}; step(a, b); end else z = f(a) ? b : c;\n", size
    )


def modules(size):
    """Modules with ports, declarations, a task and a process."""
    return repeated(
        "",
        "module m(input a, output reg [3:0] q = 0); reg [7:0] r [0:3], s = 1; wire w = a;"
        " task t(input i, output o); o = i; endtask always @(posedge a) q <= q + 1; endmodule\n",
        "",
        size,
    )


def blocks(size):
    """Blocks that stand in one another."""
    return process("begin " * DEEP + "x = a;" + " end" * DEEP + "\n", size)


def parentheses(size):
    """Parentheses that stand in one another."""
    return process("x = " + "(" * DEEP + "a" + ")" * DEEP + ";\n", size)


def sums(size):
    """Sums of many parts."""
    return process("x = " + "a + " * DEEP + "b;\n", size)


def uses(size):
    """65,536 uses of a macro with an argument, whose text comes to the size."""
    count = 65_536
    room = size // count - len("  x <= aa + ;  ")
    name = "b" * room
    return f"`define A(p) x <= p + {name};\nmodule m; initial begin\n" + "`A(aa)\n" * count + "end endmodule\n"


def scopes(lines):
    """Some lines; two of three declare a name, and ten scopes stand in one another."""
    levels = range(10)
    text = ["module m(input clk);", "  reg top;"]
    process = 0
    while len(text) + 2 * len(levels) + 13 < lines:
        names = [f"r{process}_{level}" for level in levels]
        text.append("  initial")
        for level, name in zip(levels, names):
            text += [f"{'  ' * level}  begin : b{process}_{level}", f"{'  ' * level}    reg {name};"]
        text += [f"    {name} = {outer} + top;" for name, outer in zip(names, reversed(names))]
        text += ["  end " * len(levels)]
        process += 1
    return "\n".join([*text, "endmodule", ""])


SOURCES = [statements, modules, blocks, parentheses, sums, uses]
