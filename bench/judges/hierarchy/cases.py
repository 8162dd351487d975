"""cases.py: doubtful points one by one, each with what the rules say (by hand): definitions, rules and the other program."""
import compare_yardstick as y
from data import *

M = b".model m\n"
B = lambda line, kind: b"domsyn: t:%d: blif %d %s\n" % (line, kind, KIND_WORDS[kind].encode())
H = lambda line, kind, name: b"domsyn: t:%d: blif %d %s %s\n" % (line, kind, KIND_WORDS[kind].encode(), name)
CASES = [
    # text
    ("no byte", b"", B(1, 8)), ("one LF", b"\n", B(2, 8)), ("CR alone", b"\r", B(2, 8)), ("a join alone", b"\\", B(2, 8)), ("joins alone", b"\\\n\\\r\n", B(3, 8)),
    ("CR LF CR", b"\r\n\r", B(3, 8)), ("joined at the end", M + b".inputs a \\", M + b".inputs a\n.end\n"),
    ("a join before the card", b"\\\n.model m x", B(1, 3)), ("two CRs", b".model m\r\r\n", B(1, 1)), ("CR before a comment", b".model m\r# x\n", B(1, 1)),
    ("NUL in a comment", b"#\0\n.model m#\x7f\n", M + b".end\n"), ("join in a comment", b".model m # \\\n.inputs a\n", M + b".inputs a\n.end\n"),
    ("join before a comment", b".model m\\#x\n.inputs a\n", B(1, 3)), ("join and blank", b".model m\n.inputs a \\ \n", M + b".inputs a \\ \n.end\n"),
    ("join in a comment of a joined line", b".model \\\nm # \\\n.inputs a\n", M + b".inputs a\n.end\n"),
    ("join that parts a card", b".mod\\\nel m\n", B(1, 2)), ("join and empty line", b".model m\\\n\n.inputs\n", M + b".end\n"),
    ("vertical tab", M + b".inputs a\x0bb\n", B(2, 1)), ("control byte wins", b".foo \x01\n", B(1, 1)), ("fault of a later physical line", b".model m\n.inputs a \\\nb \\\n\x7f\n", B(2, 1)),
    ("row before any model", b"1 1\n", B(1, 4)), ("end x without a model", b".end x\n", B(1, 3)), ("latch of a level without a model", b".latch a b ah c\n", B(1, 8)),
    ("row behind end", M + b".names f\n.end\n1\n", B(4, 4)), ("row behind a clock card", M + b".names f\n.clock\n1\n", B(4, 4)), ("unknown first word", b".\n", B(1, 2)),
    ("bad row before mixed", M + b".names a f\n1 1\n0 00\n", B(4, 5)), ("mixed by the first row", M + b".names f\n1\n0\n1\n", B(4, 6)), ("row of two words at width 0", M + b".names f\n1 1\n", B(3, 5)),
    ("TYPE as INIT", M + b".latch a b re\n", B(2, 3)), ("INIT as TYPE", M + b".latch a b 0 1\n", B(2, 3)), ("level out of form", M + b".latch a b ah c 4\n", B(2, 3)), ("six words", M + b".latch a b re c 0 1\n", B(2, 3)),
    ("binding =y", M + b".subckt u x==y =y\n", B(2, 3)), ("a known card in upper case", b".MODEL m\n", B(1, 2)),
    ("unit with =", M + b".inputs a\n.subckt a=b x=a\n.model a=b\n.inputs x\n", M + b".inputs a\n.end\n"),
    # names and prefixes
    ("w3 in the main model", M + b".inputs a\n.outputs g\n.subckt u x=a o=g\n.names w3\n.model u\n.inputs x\n.outputs o\n.names x t\n1 1\n.names t o\n0 1\n",
     M + b".inputs a\n.outputs g\n.names a ww1\n1 1\n.names w3\n.names ww1 g\n0 1\n.end\n"),
    ("w3 below, as a formal, on .clock", M + b".inputs a\n.outputs g\n.clock w3\n.subckt w3 w3=a o=g\n.model w3\n.inputs w3\n.outputs o\n.names w3 w7\n1 1\n.names w7 o\n0 1\n",
     M + b".inputs a\n.outputs g\n.names a w1\n1 1\n.names w1 g\n0 1\n.end\n"),
    ("ww0 and w alone", M + b".outputs g\n.subckt u o=g\n.names w\n.names ww0\n.model u\n.outputs o\n.names t\n.names t o\n0 1\n",
     M + b".outputs g\n.names w0\n.names w\n.names ww0\n.names w0 g\n0 1\n.end\n"),
    ("a control of that name", M + b".outputs g\n.latch g q re w1 1\n.names g\n.subckt u\n.model u\n.names t\n", M + b".outputs g\n.names g\n.names ww2\n.latch g q 1\n.end\n"),
    ("an actual of that name", M + b".subckt u o=w5\n.subckt u\n.model u\n.outputs o\n.names t\n", M + b".names ww0\n.names ww1\n.end\n"),
    # ports and formals
    ("inputs a b b a", M + b".inputs a b b a\n", H(1, 11, b"a")), ("outputs twice, inputs of a later model", M + b".outputs x x\n.model n\n.inputs y y\n", H(1, 11, b"x")),
    ("outputs twice on a card before inputs twice", M + b".outputs x x\n.inputs y z z y\n", H(1, 11, b"y")),
    ("bindings x bad x", M + b".inputs p\n.subckt u x=p bad=p x=p\n.model u\n.inputs x\n", H(3, 13, b"x")),
    ("bad before unbound", M + b".inputs p\n.subckt u z=p\n.model u\n.inputs x\n", H(3, 13, b"z")), ("unbound second input", M + b".inputs p\n.subckt u x=p\n.model u\n.inputs x y z\n", H(3, 13, b"y")),
    ("a port that is input and output", M + b".inputs a\n.outputs a\n.subckt u x=a\n.model u\n.inputs x\n.outputs x\n", M + b".inputs a\n.outputs a\n.end\n"),
    ("unknown model in one that nothing reaches, before a bad formal", M + b".subckt u z=a\n.model u\n.model v\n.subckt none\n", H(5, 12, b"none")),
    ("a loop that nothing reaches", M + b".model p\n.subckt q\n.model q\n.subckt p\n", H(3, 14, b"q")), ("into a loop", M + b".subckt q\n.model p\n.subckt q\n.model q\n.subckt p\n", H(4, 14, b"q")),
    ("a model in itself", M + b".subckt u\n.model u\n.subckt m\n", H(2, 14, b"u")),
    # signals
    ("two outputs at one actual", M + b".outputs f\n.subckt u o=f p=f\n.model u\n.outputs o p\n.names o\n.names p\n", H(7, 15, b"p")),
    ("a driver below a main input", M + b".inputs a\n.subckt u x=a\n.model u\n.inputs x\n.names x\n", H(6, 15, b"x")),
    ("earlier by expanded order", M + b".subckt u o=f\n.names f\n.model u\n.outputs o\n.names o\n", H(3, 15, b"f")),
    ("undriven below before the main outputs", M + b".outputs f\n.subckt u o=g\n.model u\n.outputs o\n.latch n o\n", H(6, 16, b"n")),
    ("an output that nothing drives", M + b".outputs f\n.subckt u o=f\n.model u\n.outputs o\n", H(1, 16, b"f")), ("undriven without a reader", M + b".subckt u o=f\n.model u\n.outputs o\n", M + b".end\n"),
    ("a loop over two levels", M + b".outputs f\n.subckt u x=f o=g\n.names g f\n0 1\n.model u\n.inputs x\n.outputs o\n.names x o\n- 1\n", H(9, 17, b"o")),
    ("behind a loop", M + b".outputs f\n.names g f\n.names g h g\n.names h\n", H(4, 17, b"g")), ("a loop through a latch", M + b".outputs f\n.latch g f 2\n.names f g\n0 1\n", M + b".outputs f\n.names f g\n0 1\n.latch g f 0\n.end\n"),
    # controls
    ("through two levels", M + b".inputs d clk\n.outputs q\n.subckt u a=d b=q k=clk\n.model u\n.inputs a k\n.outputs b\n.subckt v c=k a=a b=b\n.model v\n.inputs a c\n.outputs b\n.latch a b re c 1\n",
     M + b".inputs d\n.outputs q\n.latch d q 1\n.end\n"),
    ("one word in two instances", M + b".inputs d\n.subckt u a=d\n.subckt u a=d\n.model u\n.inputs a\n.latch a b re k\n", H(7, 18, b"b")),
    ("TYPE with NIL", M + b".inputs d\n.latch d p fe NIL\n.latch d q\n.latch d r re NIL\n", H(5, 18, b"r")), ("NIL and one signal", M + b".inputs d k\n.latch d p re NIL\n.latch d q re k\n.latch d r re NIL 1\n", M + b".inputs d\n.latch d p 0\n.latch d q 0\n.latch d r 1\n.end\n"),
    ("a control that is no input", M + b".inputs d\n.latch d p re k\n", M + b".inputs d\n.latch d p 0\n.end\n"),
    ("control read first below", M + b".inputs d k\n.subckt u a=k c=k\n.model u\n.inputs a c\n.latch a b re c\n", H(6, 19, b"c")),
    ("control as a main output", M + b".inputs d k\n.outputs k\n.subckt u a=d c=k\n.model u\n.inputs a c\n.latch a b re c\n", H(1, 19, b"c")),
    ("control driven by a latch", M + b".inputs d\n.latch d k\n.latch d p re k\n", H(3, 19, b"k")), ("control driven below by a table", M + b".inputs d\n.latch d p re k\n.subckt u o=k\n.model u\n.outputs o\n.names o\n", H(7, 19, b"k")),
    ("control that is read and has no driver", M + b".inputs d\n.latch d p re k\n.names k f\n", H(4, 16, b"k")), ("two controls before one that is used", M + b".inputs d k j\n.latch k p re k\n.latch d q re j\n", H(4, 18, b"q")),
    ("a clock read as data by an untyped latch", M + b".inputs d k\n.latch k p\n.latch d q re k\n", H(3, 19, b"k")),
    ("NIL as a name", M + b".inputs NIL d\n.outputs q\n.latch NIL q re NIL 1\n", M + b".inputs NIL d\n.outputs q\n.latch NIL q 1\n.end\n"),
    ("NIL as an actual of a control", M + b".inputs NIL d\n.outputs q\n.subckt u a=d b=q c=NIL\n.model u\n.inputs a c\n.outputs b\n.latch a b fe c 1\n", M + b".inputs d\n.outputs q\n.latch d q 1\n.end\n"),
    ("a main output read below before it is told", M + b".outputs f\n.subckt u x=f\n.model u\n.inputs x\n.names x t\n", H(6, 16, b"x")),
    ("end joined with a model", M + b".end \\\n.model n\n", B(2, 3)),
    ("names that end in a join", b".model m\\ \n.inputs b a\\ \n.outputs f\\ \n.names a\\ b f\\ \n11 1\n.latch f\\ q\\ 2\n", b".model m\\ \n.inputs b a\\ \n.outputs f\\ \n.names a\\ b f\\ \n11 1\n.latch f\\ q\\ 0\n.end\n"),
    ("one control by two ports", M + b".inputs d k\n.subckt u a=d c=k\n.latch d p re k\n.model u\n.inputs a c\n.latch a b re c\n", M + b".inputs d\n.latch d ww0 0\n.latch d p 0\n.end\n".replace(b"ww0", b"w1")),
    ("a port left out that its model reads", M + b".subckt u\n.model u\n.outputs o\n.names o t\n", H(5, 16, b"o")),
    ("two models with one word, the later called", M + b".inputs d\n.outputs f\n.subckt u x=d y=f\n.end\n.model u\n.inputs x\n.outputs y\n.subckt v y=y x=x\n.end\n.model v\n.inputs x\n.outputs y\n.names x y\n0 1\n.end\n", M + b".inputs d\n.outputs f\n.names d f\n0 1\n.end\n"),
    # order of the list and of levels
    ("levels before the order of cards", M + b".inputs a\n.outputs f\n.names g f\n0 1\n.names a g\n0 1\n.names k\n1\n", M + b".inputs a\n.outputs f\n.names a g\n0 1\n.names k\n1\n.names g f\n0 1\n.end\n"),
    ("inits 0 to 3 and none", M + b".inputs d\n.latch d p 0\n.latch d q 1\n.latch d r 2\n.latch d s 3\n.latch d t\n", M + b".inputs d\n.latch d p 0\n.latch d q 1\n.latch d r 0\n.latch d s 0\n.latch d t 0\n.end\n"),
    ("tables without inputs", M + b".outputs f g h\n.names f\n.names g\n1\n1\n.names h\n0\n", M + b".outputs f g h\n.names f\n.names g\n1\n1\n.names h\n0\n.end\n"),
    ("input named twice in a table", M + b".inputs a\n.names a a f\n10 1\n", M + b".inputs a\n.names a a f\n10 1\n.end\n"),
]
if __name__ == "__main__":
    bad = 0
    for word, text, want in CASES:
        want = (1, b"", want) if want.startswith(b"domsyn") else (0, want, b"")
        a, b = y.by_definitions(text, b"")[0], y.by_rules(text, b"")[0]
        with open(y.DIR + "/t", "wb") as o: o.write(text)
        c = y.ask("flat", "t")
        if not a == b == c == want:
            bad += 1
            print("DIFFERS", word, text, "\n by hand", want, "\n definitions", a, "\n rules", b, "\n plain", c)
    print("cases", len(CASES), "differ", bad)
