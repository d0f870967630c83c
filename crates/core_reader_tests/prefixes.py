"""Prefixes of texts, and with which tokens of the alphabet each goes on, by the productions of the grammar.

Each function but the last two gives rows for a part of one kind: a prefix and the tokens with which it goes on. `prefix` is the
text before the part, `behind` are the tokens that may come behind it, and `closing` those that may come in its place.
"""

# The tokens: an atom, a variable, an integer without and with a sign, a float, a character, a text, the keywords and the signs.
ALPHABET = "'a' X 1 -1 1.5 $a \"s\" after apply attributes call case catch do end fun in let letrec module of primop "
ALPHABET += "receive timeout try when ( ) { } [ ] < > , = / : | # ~ -> -|"

# With which tokens each kind of part begins. A plain one isn't annotated.
CONSTANT = "'a' 1 -1 $a \"s\" { ["
PLAIN = CONSTANT + " X < let case fun letrec apply call primop try do catch"
EXPRESSION = PLAIN + " ("
PATTERN = CONSTANT + " X ("
CLAUSE = PATTERN + " <"
DEFINITION = "'a' ("

# What the profile hasn't where an integer could stand, and where a variable is the module or the name of a `call`.
LACKING = "1.5 receive # ~"
VARIABLE_OPERANDS = ["call", "call (", "call 'b' :", "call 'b' : ("]

HEAD = "module 'm' [ ] attributes [ ]"
BODY = f"{HEAD} 'f' / 0 = fun ( ) ->"
# What may come behind a definition of the module.
NEXT = DEFINITION + " end"


def annotation(prefix, behind):
    """What is annotated stands at the end of the prefix, behind its `(`."""
    yield f"{prefix} -|", "["
    yield f"{prefix} -| [", CONSTANT + " ]"
    yield f"{prefix} -| [ ]", ")"
    yield f"{prefix} -| [ ] )", behind


def constant(prefix, behind, closing=""):
    yield prefix, f"{CONSTANT} {closing}"
    for part in ["1", "'b'", "{ }", "[ ]"]:
        yield f"{prefix} {part}", behind
    yield f"{prefix} {{", CONSTANT + " }"
    yield f"{prefix} {{ 1", ", }"
    yield f"{prefix} {{ 1 ,", CONSTANT
    yield f"{prefix} [", CONSTANT + " ]"
    yield f"{prefix} [ 1", ", | ]"
    yield f"{prefix} [ 1 ,", CONSTANT
    yield f"{prefix} [ 1 |", CONSTANT
    yield f"{prefix} [ 1 | 2", "]"
    yield f"{prefix} [ 1 | [", CONSTANT + " ]"


def operand(prefix, behind):
    """The module or the name of a `call`, or the name of a `primop`."""
    yield prefix, "'a' ("
    yield f"{prefix} 'b'", behind
    yield f"{prefix} (", "'a'"
    yield f"{prefix} ( 'b'", "-|"
    yield from annotation(f"{prefix} ( 'b'", behind)


def function_name(prefix, behind, closing=""):
    """A function's name, which may be annotated."""
    yield prefix, f"'a' ( {closing}"
    yield f"{prefix} 'b'", "/"
    yield f"{prefix} 'b' /", "1"
    yield f"{prefix} 'b' / 1", behind
    yield f"{prefix} (", "'a'"
    yield f"{prefix} ( 'b'", "/"
    yield f"{prefix} ( 'b' /", "1"
    yield f"{prefix} ( 'b' / 1", "-|"
    yield from annotation(f"{prefix} ( 'b' / 1", behind)


def variable(prefix, behind, closing=""):
    yield prefix, f"X ( {closing}"
    yield f"{prefix} X", behind
    yield f"{prefix} (", "X"
    yield f"{prefix} ( X", "-|"
    yield f"{prefix} ( X -| [ ] )", behind


def variables(prefix, behind):
    """One variable, or those between `<` and `>`."""
    yield from variable(prefix, behind, "<")
    yield from variable(f"{prefix} <", ", >", ">")
    yield f"{prefix} < X ,", "X ("
    yield f"{prefix} < >", behind
    yield f"{prefix} < X >", behind


def pattern(prefix, behind, closing=""):
    yield prefix, f"{PATTERN} {closing}"
    yield f"{prefix} 1", behind
    yield f"{prefix} 'b'", behind
    yield f"{prefix} X", f"{behind} ="
    yield f"{prefix} X =", PATTERN
    yield f"{prefix} X = 1", behind
    # An annotated pattern, or a variable of an alias that is annotated.
    yield f"{prefix} (", PATTERN
    yield f"{prefix} ( 1", "-|"
    yield f"{prefix} ( 1 -| [ ] )", behind
    yield f"{prefix} ( X", "= -|"
    yield f"{prefix} ( X -| [ ] )", f"{behind} ="
    # An alias that is annotated and whose variable is.
    yield f"{prefix} ( (", "X"
    yield f"{prefix} ( ( X", "-|"
    yield f"{prefix} ( ( X -| [ ] )", "="
    yield f"{prefix} ( ( X -| [ ] ) = 1", "-|"
    yield f"{prefix} ( ( X -| [ ] ) = 1 -| [ ] )", behind


def clauses(prefix):
    """The clauses of a `case`: the first one, and what tells that another begins behind one."""
    last = CLAUSE + " end"
    yield prefix, CLAUSE
    yield f"{prefix} X", "= when"
    yield f"{prefix} 1", "when"
    yield f"{prefix} 'b'", "when"
    yield f"{prefix} < >", "when"
    yield f"{prefix} < X >", "when"
    yield f"{prefix} {{ }}", "when"
    yield f"{prefix} [ ]", "when"
    yield f"{prefix} [ X ]", "when"
    yield f"{prefix} [ X | Y ]", "when"
    yield f"{prefix} X = Y", "= when"
    yield f"{prefix} X when 1 -> 2", last
    yield f"{prefix} X when 1 -> 2 X", "= when"
    yield f"{prefix} X when 1 -> 2 'b'", "when"
    yield f"{prefix} X when 1 -> 2 (", CLAUSE
    # An annotated clause, an annotated pattern, or an alias whose variable is annotated.
    yield f"{prefix} (", CLAUSE
    yield f"{prefix} ( 1", "when -|"
    yield f"{prefix} ( 'b'", "when -|"
    yield f"{prefix} ( X", "= when -|"
    yield f"{prefix} ( X = 1", "when -|"
    yield f"{prefix} ( < X >", "when"
    yield f"{prefix} ( 1 -| [ ] )", "when"
    yield f"{prefix} ( X -| [ ] )", "= when"
    yield f"{prefix} ( X -| [ ] ) = 1", "when"
    yield f"{prefix} ( X = 1 -| [ ] )", "when"
    yield f"{prefix} ( X when 1 -> 2", "-|"
    yield from annotation(f"{prefix} ( X when 1 -> 2", last)
    # Two of these.
    yield f"{prefix} ( (", PATTERN
    yield f"{prefix} ( ( 1", "-|"
    yield f"{prefix} ( ( X", "= -|"
    yield f"{prefix} ( ( X = 1", "-|"
    yield f"{prefix} ( ( 1 -| [ ] )", "when"
    yield f"{prefix} ( ( X -| [ ] )", "= when"
    yield f"{prefix} ( ( X -| [ ] ) = 1", "when -|"
    yield f"{prefix} ( ( X -| [ ] ) = 1 -| [ ] )", "when"
    # And all three.
    yield f"{prefix} ( ( (", "X"
    yield f"{prefix} ( ( ( X", "-|"
    yield f"{prefix} ( ( ( X -| [ ] )", "="
    yield f"{prefix} ( ( ( X -| [ ] ) = 1", "-|"


def expression(prefix, behind, closing=""):
    yield prefix, f"{EXPRESSION} {closing}"
    yield f"{prefix} 'b'", f"{behind} /"
    yield f"{prefix} 'b' /", "1"
    yield f"{prefix} 'b' / 1", behind
    yield f"{prefix} (", PLAIN
    yield f"{prefix} ( 1", "-|"
    yield f"{prefix} ( 1 -| [ ] )", behind


# Where else a part of a kind may stand in a body: what stands before it, what may come behind it, and what in its place. `NEXT`
# is what may come behind the body.
EXPRESSIONS = [
    ("", NEXT, ""),
    ("{", ", }", "}"),
    ("[", ", | ]", "]"),
    ("[ 1 |", "]", ""),
    ("<", ", >", ">"),
    ("let X =", "in", ""),
    ("let X = 1 in", NEXT, ""),
    ("case", "of", ""),
    ("case 1 of X when", "->", ""),
    ("case 1 of X when 1 ->", CLAUSE + " end", ""),
    ("case 1 of ( X when 1 ->", "-|", ""),
    ("fun ( ) ->", NEXT, ""),
    ("( fun ( ) ->", "-|", ""),
    ("letrec 'g' / 0 = fun ( ) ->", DEFINITION + " in", ""),
    ("letrec in", NEXT, ""),
    ("apply", "(", ""),
    ("apply X (", ", )", ")"),
    ("call 'b' : 'c' (", ", )", ")"),
    ("primop 'b' (", ", )", ")"),
    ("try", "of", ""),
    ("try 1 of X ->", "catch", ""),
    ("try 1 of X -> 1 catch Y ->", NEXT, ""),
    ("do", EXPRESSION, ""),
    ("do 1", NEXT, ""),
    ("catch", NEXT, ""),
]
PATTERNS = [
    ("<", ", >", ">"),
    ("{", ", }", "}"),
    ("[", ", | ]", "]"),
    ("[ 1 ,", ", | ]", ""),
    ("[ 1 |", "]", ""),
    ("X =", "when", ""),
    ("( X =", "when -|", ""),
]
# Lists of expressions and of patterns that go on behind a comma, where they can't be closed.
MORE_EXPRESSIONS = ["{ 1 ,", "[ 1 ,", "< 1 ,", "apply X ( 1 ,", "call 'b' : 'c' ( 1 ,", "primop 'b' ( 1 ,"]
MORE_PATTERNS = ["< 1 ,", "{ 1 ,"]
# Whole expressions.
WHOLE = [
    "1",
    "X",
    "[ ]",
    "[ 1 ]",
    "[ 1 | 2 ]",
    "{ }",
    "< >",
    "< 1 >",
    "let X = 1 in 2",
    "case 1 of X when 1 -> 2 end",
    "letrec in 1",
    "apply X ( )",
    "call 'b' : 'c' ( )",
    "primop 'b' ( )",
    "try 1 of X -> 2 catch Y -> 3",
    "do 1 2",
    "catch 1",
]


def body():
    """The rows of bodies."""
    for prefix, behind, closing in EXPRESSIONS:
        yield from expression(f"{BODY} {prefix}".rstrip(), behind, closing)
    for prefix in MORE_EXPRESSIONS:
        yield f"{BODY} {prefix}", EXPRESSION
    for part in WHOLE:
        yield f"{BODY} {part}", NEXT
    yield f"{BODY} ( 'b'", "/ -|"
    yield f"{BODY} ( 'b' /", "1"
    yield from annotation(f"{BODY} ( 1", NEXT)
    yield from clauses(f"{BODY} case 1 of")
    for prefix, behind, closing in PATTERNS:
        yield from pattern(f"{BODY} case 1 of {prefix}", behind, closing)
    for prefix in MORE_PATTERNS:
        yield f"{BODY} case 1 of {prefix}", PATTERN
    yield f"{BODY} case 1", "of"
    yield from variables(f"{BODY} let", "=")
    yield from variables(f"{BODY} try 1 of", "->")
    yield from variables(f"{BODY} try 1 of X -> 1 catch", "->")
    yield f"{BODY} fun", "("
    yield from variable(f"{BODY} fun (", ", )", ")")
    yield from variable(f"{BODY} fun ( X ,", ", )")
    yield f"{BODY} fun ( )", "->"
    yield from function_name(f"{BODY} letrec", "=", "in")
    yield from fun(f"{BODY} letrec 'g' / 0 =", DEFINITION + " in")
    yield from operand(f"{BODY} call", ":")
    yield from operand(f"{BODY} call 'b' :", "(")
    yield from operand(f"{BODY} primop", "(")


def fun(prefix, behind):
    """The fun of a definition."""
    yield prefix, "fun ("
    yield f"{prefix} fun", "("
    yield from variable(f"{prefix} fun (", ", )", ")")
    yield from variable(f"{prefix} fun ( X ,", ", )")
    yield f"{prefix} fun ( )", "->"
    yield f"{prefix} fun ( ) -> 1", behind
    yield f"{prefix} (", "fun"
    yield f"{prefix} ( fun", "("
    yield f"{prefix} ( fun ( ) -> 1", "-|"
    yield from annotation(f"{prefix} ( fun ( ) -> 1", behind)


def module():
    """The rows of modules outside bodies."""
    yield "", "module ("
    yield "(", "module"
    yield "module", "'a'"
    yield "module 'm'", "["
    yield "( module 'm'", "["
    yield from function_name("module 'm' [", ", ]", "]")
    yield from function_name("module 'm' [ 'f' / 1 ,", ", ]")
    yield "module 'm' [ ]", "attributes"
    yield "module 'm' [ ] attributes", "["
    yield "module 'm' [ ] attributes [", "'a' ( ]"
    yield "module 'm' [ ] attributes [ 'b'", "="
    yield "module 'm' [ ] attributes [ (", "'a'"
    yield "module 'm' [ ] attributes [ ( 'b'", "-|"
    yield from annotation("module 'm' [ ] attributes [ ( 'b'", "=")
    yield from constant("module 'm' [ ] attributes [ 'b' =", ", ]", "(")
    yield from constant("module 'm' [ ] attributes [ 'b' = (", "-|")
    yield from annotation("module 'm' [ ] attributes [ 'b' = ( 1", ", ]")
    yield "module 'm' [ ] attributes [ 'b' = 1 ,", "'a' ("
    yield from function_name(HEAD, "=", "end")
    yield from fun(f"{HEAD} 'f' / 0 =", NEXT)
    yield f"{HEAD} end", ""
    yield f"( {HEAD} end", "-|"
    yield from annotation(f"( {HEAD} end", "")
    yield from constant(f"( {HEAD} end -| [", ", ]", "]")
    yield f"( {HEAD} end -| [ 1 ,", CONSTANT


def modules():
    """Each prefix of a module, the tokens with which it goes on, and those that the profile hasn't there."""
    prefixes = {}
    for prefix, going_on in [*module(), *body()]:
        going_on = set(going_on.split())
        # Where two functions speak of one prefix, they say the same.
        assert prefixes.setdefault(prefix, going_on) == going_on, prefix
    outside = {f"{BODY} {prefix}" for prefix in VARIABLE_OPERANDS}
    assert outside <= set(prefixes)
    for prefix, going_on in prefixes.items():
        lacking = LACKING if "1" in going_on else "X" if prefix in outside else ""
        yield prefix, going_on, set(lacking.split())


def calls():
    """Each prefix of a call, and the tokens with which it goes on. `)` behind an argument is the end of the call."""
    yield "", "'a'"
    yield "'f'", "("
    yield from constant("'f' (", ", )", ")")
    yield from constant("'f' ( 1 ,", ", )")
    yield "'f' ( )", ""
