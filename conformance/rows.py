"""Worked rows of `pyast unparse`: sources, the text that each has, and the words that it is read with."""

# What is its own text.
AS_GIVEN = """\
x = 1
-x ** -y
(-x) ** y
--x
not a in b
not (a and b)
(a and b) and c
a and (b and c)
a and b or c and not d
a and (b or c)
a + b - c
a + (b - c)
a * (b + c) % d
(a ** b) ** c
a ** b ** c
-(a + b)
(a | b) & c ^ d << e
a < b <= c is not d not in e
a < (b < c)
(a < b) < c
(a if b else c) if d else e
(lambda: x)()
lambda *, a=1: a
lambda a, /, b, *c, d=1, **e: (yield)
lambda: lambda: (a, b)
a if b else lambda: c
(a, b), c
a,
()
x = ()
x = a, b
x = (a, b), *c
x = y = a, *b
x = (a := 1, b)
(a := 1)
f(a := 1)
x[a := 1]
x[a := 1, b]
{a := 1, b}
[a := 1, (b, c), *d]
x[(a, b), c]
x[a, b:c]
x[a,]
x[()]
x[a:b, ::c]
x[:, a:, :b, c:d:e]
x[a:(b := c)]
x[(yield)]
a[*b]
a[*b, c]
{**d, 1: 2}
{a: b, **(c or d)}
{}
[a for b, c in d if e if f]
[a for b in (c if d else e) if (f if g else h)]
[(a, b) for c in d async for e in f]
{a: b for c in d}
{a for b in c}
(a for b in c)
f(a for b in c)
f((a for b in c), d)
f((a for b in c), d=e)
f(*a, b, c=d, **e)
f(*a or b)
f((yield))
f((a, b), c=(d, e))
f((lambda: x)(), y)
await x ** y
(await x)(y)
await x.y(z)
yield
yield a, b
x = yield
x = yield from y
x = (yield), a
(yield) + 1
1 .real
x.real
(1 + 2).real
'a'.join(b)
(a, b).c
[a].b
'it\\'s "quoted"'
"it's"
'\\ud800'
b'\\x00\\xff'
...
u'a'
340282366920938463463374607431768211455
(x): int = 1
x: int
x: (a, b) = c, d
x.y: int = yield
x += a, b
x @= yield
del a, b.c, d[e]
del (a, b), [c]
a, (b, *c) = [d, e] = f
*a, b = c
return
return a, *b
raise
raise a from b
assert a, b
assert (a, b)
import a.b.c as d, e
from a import b as c, d
from a.b import *
from . import a
from .. import a
from ... import a
from ....a import b
from ......a import b
global a, b
nonlocal a
match(x)
match = 1
type = print
""".splitlines()

# What has another text. A text of several lines stands for itself, too, as it comes back.
OTHERS = [
    ("", ""),
    ("# nothing\n\n", ""),
    ("x = 1;  y = 2 # c\n", "x = 1\ny = 2\n"),
    ("x = (1)\n", "x = 1\n"),
    ("x = ((a, b))\n", "x = a, b\n"),
    ("x = (a := 1), b\n", "x = (a := 1, b)\n"),
    ("1if x else 2\n", "1 if x else 2\n"),
    ("a if b else (c if d else e)\n", "a if b else c if d else e\n"),
    ("lambda: (lambda: x)\n", "lambda: lambda: x\n"),
    ("(a and b) or c\n", "a and b or c\n"),
    ("x = 0x10, 0b1, 1_0\n", "x = 16, 1, 10\n"),
    ("0x" + "f" * 32 + "\n", "340282366920938463463374607431768211455\n"),
    ("u'a' 'b'\n", "u'ab'\n"),
    ('"""a\n\'b"""\n', '"a\\n\'b"\n'),
    ("\ufb01 = 1\n", "fi = 1\n"),
    ("f((a for b in c))\n", "f(a for b in c)\n"),
    ("f(a=b, *c)\n", "f(*c, a=b)\n"),
    ("x[(a, b)]\n", "x[a, b]\n"),
    ("x[a:b:]\n", "x[a:b]\n"),
    ("(x.y): int\n", "x.y: int\n"),
    ("from . import (a, b,)\n", "from . import a, b\n"),
    ("class A(): pass\n", "class A:\n    pass\n"),
    ("class A(b, *c, d=e): pass\n", "class A(b, *c, d=e):\n    pass\n"),
    ("class A((b for c in d)): pass\n", "class A((b for c in d)):\n    pass\n"),
    ("def f(a, /, b: int = 1, *, c=2, **d) -> g: return a\n", "def f(a, /, b: int=1, *, c=2, **d) -> g:\n    return a\n"),
    ("def f(*a: *b, c: (d, e) = (f, g)): pass\n", "def f(*a: *b, c: (d, e)=(f, g)):\n    pass\n"),
    ("@a.b(c)\n@(d, e)\n@f if g else h\nasync def i(): await j\n",
     "@a.b(c)\n@(d, e)\n@f if g else h\nasync def i():\n    await j\n"),
    ("with (a, b): pass\n", "with a, b:\n    pass\n"),
    ("with ((a, b)): pass\n", "with ((a, b)):\n    pass\n"),
    ("with ((a,)): pass\n", "with ((a,)):\n    pass\n"),
    ("with (a,): pass\n", "with a:\n    pass\n"),
    ("with (*a, b): pass\n", "with (*a, b):\n    pass\n"),
    ("with (a := b, c): pass\n", "with (a := b, c):\n    pass\n"),
    ("with (a, b) as c: pass\n", "with (a, b) as c:\n    pass\n"),
    ("with ((a, b)), c: pass\n", "with (a, b), c:\n    pass\n"),
    ("with (): pass\n", "with ():\n    pass\n"),
    ("with a as (b, c), d as [e]: pass\n", "with a as (b, c), d as [e]:\n    pass\n"),
    ("async with a as b.c: pass\n", "async with a as b.c:\n    pass\n"),
    ("with (yield): pass\n", "with (yield):\n    pass\n"),
    ("with (a := b): pass\n", "with (a := b):\n    pass\n"),
    ("for (a, b) in (c, *d): e\nelse: f\n", "for a, b in c, *d:\n    e\nelse:\n    f\n"),
    ("async for (a.b) in c: continue\n", "async for a.b in c:\n    continue\n"),
    ("for a in lambda: b: break\n", "for a in lambda: b:\n    break\n"),
    ("while (a := b): c; d\nelse: e\n", "while a := b:\n    c\n    d\nelse:\n    e\n"),
    ("if a: b\nelse:\n  if c: d\n", "if a:\n    b\nelif c:\n    d\n"),
    ("if a: b\nelse:\n  if c: d\n  e\n", "if a:\n    b\nelse:\n    if c:\n        d\n    e\n"),
    ("if a: b\nelif c: d\nelif e: f\nelse: g\n", "if a:\n    b\nelif c:\n    d\nelif e:\n    f\nelse:\n    g\n"),
    ("try: a\nexcept (b, c) as d: e\nexcept: f\nelse: g\nfinally: h\n",
     "try:\n    a\nexcept (b, c) as d:\n    e\nexcept:\n    f\nelse:\n    g\nfinally:\n    h\n"),
    ("try: a\nexcept *b: c\n", "try:\n    a\nexcept *b:\n    c\n"),
    ("try: a\nfinally: b\n", "try:\n    a\nfinally:\n    b\n"),
    ("(" * 600 + "x" + ")" * 600 + "\n", "x\n"),
    ("x" + "+x" * 499 + "\n", "x" + " + x" * 499 + "\n"),
    ("-" * 499 + "x\n", "-" * 499 + "x\n"),
    ("[(yield " * 249 + "x" + ")]" * 249 + "\n", "[(yield " * 249 + "x" + ")]" * 249 + "\n"),
    ("".join(" " * level + "if x:\n" for level in range(499)) + " " * 499 + "y\n",
     "".join("    " * level + "if x:\n" for level in range(499)) + "    " * 499 + "y\n"),
    ("if a: b\n" + "elif a: b\n" * 498, "if a:\n    b\n" + "elif a:\n    b\n" * 498),
]

# What Python 3.12 added.
OF_312 = [
    ("type X[T: int, *Ts, **P] = list[T]\n", "type X[T: int, *Ts, **P] = list[T]\n"),
    ("type X = (a, b)\n", "type X = (a, b)\n"),
    ("type X[T: (a, b)] = lambda: T\n", "type X[T: (a, b)] = lambda: T\n"),
    ("class A[T]: pass\n", "class A[T]:\n    pass\n"),
    ("def f[T,](a): return a\n", "def f[T](a):\n    return a\n"),
    ("async def f[*T, **P](a: (T)) -> P: pass\n", "async def f[*T, **P](a: T) -> P:\n    pass\n"),
    ("type = 1\n", "type = 1\n"),
    ("type(x)\n", "type(x)\n"),
]

# What `--whole` lets in.
OF_WHOLE = [
    ("1.5\n", "1.5\n"),
    ("1.\n", "1.0\n"),
    ("1_0.0_1e1_0\n", "100100000000.0\n"),
    ("012.5\n", "12.5\n"),
    ("1e16\n", "1e+16\n"),
    ("1e15\n", "1000000000000000.0\n"),
    ("0.0001\n", "0.0001\n"),
    ("0.00001\n", "1e-05\n"),
    ("5e-324\n", "5e-324\n"),
    ("2e-324\n", "0.0\n"),
    ("1e309\n", "1e309\n"),
    ("179769313486231580793e289\n", "1e309\n"),
    ("1125899906842624.25\n", "1125899906842624.2\n"),
    ("1125899906842624.75\n", "1125899906842624.8\n"),
    ("5.684341886080802e-14\n", "5.684341886080802e-14\n"),
    ("9007199254740993.0\n", "9007199254740992.0\n"),
    ("2j\n", "2j\n"),
    ("2.50J\n", "2.5j\n"),
    ("1e400j\n", "1e309j\n"),
    ("0j\n", "0j\n"),
    ("1e16j\n", "1e+16j\n"),
    ("-1.5\n", "-1.5\n"),
    ("1 + 2j\n", "1 + 2j\n"),
    ("(1 + 2j) * 1.5\n", "(1 + 2j) * 1.5\n"),
    ("(1.5).real\n", "1.5 .real\n"),
    ("2j .imag\n", "2j .imag\n"),
    ("1..real\n", "1.0 .real\n"),
    ("1" + "0" * 4299 + "\n", "1" + "0" * 4299 + "\n"),
]

# f-strings, which `--whole` lets in too.
FORMATTED = [
    ("f''\n", "f''\n"),
    ("f'a' 'b'\n", "f'ab'\n"),
    ("f'{x}'\n", "f'{x}'\n"),
    ("F'{x!s}' rf'{x!r}{x!a}'\n", "f'{x!s}{x!r}{x!a}'\n"),
    ("f'{{{x}}}'\n", "f'{{{x}}}'\n"),
    ("f'{x !r}'\n", "f'{x!r}'\n"),
    ("f'{x:}'\n", "f'{x:}'\n"),
    ("f'{x:>{w}.{p!r:3}}'\n", "f'{x:>{w}.{p!r:3}}'\n"),
    ("f'{x:{{y}}}'\n", "f'{x:{ {y}}}'\n"),
    ("f'{x:\\x7b}'\n", "f'{x:\\x7b}'\n"),
    ("f'{x=}'\n", "f'x={x!r}'\n"),
    ("f'{ x = !s}'\n", "f' x = {x!s}'\n"),
    ("f'{x=:>5}'\n", "f'x={x:>5}'\n"),
    ("f'{x=:}'\n", "f'x={x:}'\n"),
    ("f'{x==y}'\n", "f'{x == y}'\n"),
    ("f'{x!=y!r}'\n", "f'{x != y!r}'\n"),
    ("f'{x:=5}'\n", "f'{x:=5}'\n"),
    ("f'{(x:=5)}'\n", "f'{(x := 5)}'\n"),
    ("f'{(lambda: 1)}'\n", "f'{(lambda: 1)}'\n"),
    ("f'{x<=y}'\n", "f'{x <= y}'\n"),
    ("f'{*a, b}'\n", "f'{(*a, b)}'\n"),
    ("f'{a, b}'\n", "f'{(a, b)}'\n"),
    ("f'{yield x}'\n", "f'{(yield x)}'\n"),
    ("f'{a for a in b}'\n", "f'{(a for a in b)}'\n"),
    ("f'{a if b else c}'\n", "f'{(a if b else c)}'\n"),
    ("f'{ {1: 2}[1]}'\n", "f'{ {1: 2}[1]}'\n"),
    ("f'{ {1}}'\n", "f'{ {1}}'\n"),
    ("f'{{1}}'\n", "f'{{1}}'\n"),
    ('f\'{x["a"]}\'\n', 'f\'{x["a"]}\'\n'),
    ('f"{x[\'a\']}"\n', 'f\'{x["a"]}\'\n'),
    ("f'\\{x}'\n", "f'\\\\{x}'\n"),
    ("f'\\{{x}}'\n", "f'\\\\{{x}}'\n"),
    ("rf'\\{x}\\n'\n", "f'\\\\{x}\\\\n'\n"),
    ('f\'{"#"}\'\n', 'f\'{"#"}\'\n'),
    ("f'{1.5}{2j}'\n", "f'{1.5}{2j}'\n"),
    ("f'''{\nx}'''\n", "f'{x}'\n"),
    ("f'''{x:\n}'''\n", "f'{x:\\n}'\n"),
    ("u'a' f'{x}b'\n", "u'a' f'{x}b'\n"),
    ("u'' f'{x:a{y}b}'\n", "u'' f'{x:a{y}b}'\n"),
    ("U'a' f'{x}'\n", "f'a{x}'\n"),
    ("f'{x}' u'a'\n", "f'{x}a'\n"),
    ("f'it\\'s {x}'\n", "f'it\\'s {x}'\n"),
    ("f'\\ud800{x}'\n", "f'\\ud800{x}'\n"),
    ('f\'{f"{x}"}\'\n', 'f\'{f"{x}"}\'\n'),
    ('f\'{b"a"}\'\n', 'f\'{b"a"}\'\n'),
    ('f\'{u"a" "b"}\'\n', 'f\'{u"ab"}\'\n'),
    ('f\'{""}\'\n', 'f\'{""}\'\n'),
    ("f'{x}: {y!r:>10}\\n'\n", "f'{x}: {y!r:>10}\\n'\n"),
    ('f"{\'\'\'a\'\'\'}"\n', 'f\'{"a"}\'\n'),
    ('f"{f\'{x!r:>5}={y}\'}"\n', 'f\'{f"{x!r:>5}={y}"}\'\n'),
    ('u\'a\' f"{u\'b\' f\'{x}\'}"\n', 'u\'a\' f\'{u"b" f"{x}"}\'\n'),
    ("u'' f'{x}'\n", "f'{x}'\n"),
    ("u'a' f''\n", "u'a' f''\n"),
]

ROWS = [
    *((f"{line}\n", f"{line}\n", ()) for line in AS_GIVEN),
    *((source, text, ()) for source, text in OTHERS),
    *((source, text, ("--py312",)) for source, text in OF_312),
    *((source, text, ("--whole",)) for source, text in [*OF_WHOLE, *FORMATTED]),
]
