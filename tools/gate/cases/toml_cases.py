#!/usr/bin/env python3
"""Writes the cases of crates/deny_cases_toml: `stdin`, a text of TOML a line as a JSON string, and `stdout`, what
each text is by tools/gate/readings/toml.py.

What a text is, tree, outside the grammar or clashing, is written beside each case, from the TOML document where it
shows or names the case; the reading has to agree with it. Python's tomllib has to agree too, in what it accepts and
in the values, but where a profile differs: `differs` names these cases.

usage: tools/gate/cases/toml_cases.py [FOLDER]   (crates/deny_cases_toml where none is given)
"""
import datetime
import itertools
import json
import math
import os
import re
import sys
import threading
import tomllib
from pathlib import Path

sys.path.insert(0, str(Path(__file__).resolve().parent.parent))

from readings.toml import SEGMENTS, line_of, reading, verdict_of

# ---- the same by tomllib

def plain(value):
    """A tree as tomllib gives it."""
    if "table" in value:
        return {entry["key"]: plain(entry["value"]) for entry in value["table"]}
    if "array" in value:
        return [plain(element) for element in value["array"]]
    if "float" in value:
        return float(value["float"].replace("_", ""))
    if "date" in value:
        return moment(value["date"])
    if "multiline" in value:
        return value["multiline"].replace("\r\n", "\n")
    if "text" in value:
        return value["text"]
    return value["integer"] if "integer" in value else value["boolean"]


def moment(text):
    text = text.upper().replace(" ", "T")
    if "-" not in text:
        return datetime.time.fromisoformat(text)
    return datetime.datetime.fromisoformat(text) if "T" in text else datetime.date.fromisoformat(text)


def same(one, other):
    if isinstance(one, dict) and isinstance(other, dict):
        return one.keys() == other.keys() and all(same(one[key], other[key]) for key in one)
    if isinstance(one, list) and isinstance(other, list):
        return len(one) == len(other) and all(same(a, b) for a, b in zip(one, other))
    if isinstance(one, float) and isinstance(other, float) and math.isnan(one):
        return math.isnan(other)
    return type(one) is type(other) and one == other


def agrees(text, answer):
    """Whether tomllib accepts and reads the text as this answer says."""
    try:
        value = tomllib.loads(text)
    except (tomllib.TOMLDecodeError, ValueError):
        return isinstance(answer, str)
    return isinstance(answer, dict) and same(plain(answer), value)


def is_accepted(text):
    """Whether tomllib accepts the text."""
    try:
        tomllib.loads(text)
    except (tomllib.TOMLDecodeError, ValueError):
        return False
    return True


# ---- the cases: a text and what it is

def each(verdict, *texts):
    return [(text, verdict) for text in texts]


# The examples of the TOML document, those that it calls invalid included.
DOCUMENT = each(
    "tree",
    '# This is a TOML document\n\ntitle = "TOML Example"\n\n[owner]\nname = "Tom Preston-Werner"\n'
    "dob = 1979-05-27T07:32:00-08:00\n\n[database]\nenabled = true\nports = [ 8000, 8001, 8002 ]\n"
    'data = [ ["delta", "phi"], [3.14] ]\ntemp_targets = { cpu = 79.5, case = 72.0 }\n\n[servers]\n\n'
    '[servers.alpha]\nip = "10.0.0.1"\nrole = "frontend"\n\n[servers.beta]\nip = "10.0.0.2"\nrole = "backend"\n',
    '# This is a full-line comment\nkey = "value"  # This is a comment at the end of a line\n'
    'another = "# This is not a comment"\n',
    'key = "value"\nbare_key = "value"\nbare-key = "value"\n1234 = "value"\n',
    '"127.0.0.1" = "value"\n"character encoding" = "value"\n"ʎǝʞ" = "value"\n\'key2\' = "value"\n'
    "'quoted \"value\"' = \"value\"\n",
    '"" = "blank"     # VALID but discouraged\n',
    "'' = 'blank'     # VALID but discouraged\n",
    'name = "Orange"\nphysical.color = "orange"\nphysical.shape = "round"\nsite."google.com" = true\n',
    'fruit.name = "banana"     # this is best practice\nfruit. color = "yellow"    # same as fruit.color\n'
    'fruit . flavor = "banana"   # same as fruit.flavor\n',
    "fruit.apple.smooth = true\nfruit.orange = 2\n",
    'apple.type = "fruit"\norange.type = "fruit"\n\napple.skin = "thin"\norange.skin = "thick"\n\n'
    'apple.color = "red"\norange.color = "orange"\n',
    '3.14159 = "pi"\n',
    'str = "I\'m a string. \\"You can quote me\\". Name\\tJos\\u00E9\\nLocation\\tSF."\n',
    'str1 = """\nRoses are red\nViolets are blue"""\n',
    'str2 = """\nThe quick brown \\\n\n\n  fox jumps over \\\n    the lazy dog."""\n',
    'str3 = """\\\n       The quick brown \\\n       fox jumps over \\\n       the lazy dog.\\\n       """\n',
    'str4 = """Here are two quotation marks: "". Simple enough."""\n',
    'str5 = """Here are three quotation marks: ""\\"."""\n',
    'str6 = """Here are fifteen quotation marks: ""\\"""\\"""\\"""\\"""\\"."""\n',
    'str7 = """"This," she said, "is just a pointless statement.""""\n',
    "winpath  = 'C:\\Users\\nodejs\\templates'\nwinpath2 = '\\\\ServerX\\admin$\\system32\\'\n"
    "quoted   = 'Tom \"Dubs\" Preston-Werner'\nregex    = '<\\i\\c*\\s*>'\n",
    "regex2 = '''I [dw]on't need \\d{2} apples'''\nlines  = '''\nThe first newline is\ntrimmed in raw strings.\n"
    "   All other whitespace\n   is preserved.\n'''\n",
    "quot15 = '''Here are fifteen quotation marks: \"\"\"\"\"\"\"\"\"\"\"\"\"\"\"'''\n",
    'apos15 = "Here are fifteen apostrophes: \'\'\'\'\'\'\'\'\'\'\'\'\'\'\'"\n',
    "str = ''''That,' she said, 'is still pointless.''''\n",
    "int1 = +99\nint2 = 42\nint3 = 0\nint4 = -17\nint5 = 1_000\nint6 = 5_349_221\nint7 = 53_49_221\n"
    "int8 = 1_2_3_4_5\n",
    "hex1 = 0xDEADBEEF\nhex2 = 0xdeadbeef\nhex3 = 0xdead_beef\noct1 = 0o01234567\noct2 = 0o755\nbin1 = 0b11010110\n",
    "flt1 = +1.0\nflt2 = 3.1415\nflt3 = -0.01\nflt4 = 5e+22\nflt5 = 1e06\nflt6 = -2E-2\nflt7 = 6.626e-34\n"
    "flt8 = 224_617.445_991_228\n",
    "sf1 = inf\nsf2 = +inf\nsf3 = -inf\nsf4 = nan\nsf5 = +nan\nsf6 = -nan\n",
    "bool1 = true\nbool2 = false\n",
    "odt1 = 1979-05-27T07:32:00Z\nodt2 = 1979-05-27T00:32:00-07:00\nodt3 = 1979-05-27T00:32:00.999999-07:00\n"
    "odt4 = 1979-05-27 07:32:00Z\n",
    "ldt1 = 1979-05-27T07:32:00\nldt2 = 1979-05-27T00:32:00.999999\nld1 = 1979-05-27\nlt1 = 07:32:00\n"
    "lt2 = 00:32:00.999999\n",
    'integers = [ 1, 2, 3 ]\ncolors = [ "red", "yellow", "green" ]\nnested_arrays_of_ints = [ [ 1, 2 ], [3, 4, 5] ]\n'
    'nested_mixed_array = [ [ 1, 2 ], ["a", "b", "c"] ]\n'
    "string_array = [ \"all\", 'strings', \"\"\"are the same\"\"\", '''type''' ]\n",
    'numbers = [ 0.1, 0.2, 0.5, 1, 2, 5 ]\ncontributors = [\n  "Foo Bar <foo@example.com>",\n'
    '  { name = "Baz Qux", email = "bazqux@example.com", url = "https://example.com/bazqux" }\n]\n',
    "integers2 = [\n  1, 2, 3\n]\n\nintegers3 = [\n  1,\n  2, # this is ok\n]\n",
    "[table]\n",
    '[table-1]\nkey1 = "some string"\nkey2 = 123\n\n[table-2]\nkey1 = "another string"\nkey2 = 456\n',
    '[dog."tater.man"]\ntype.name = "pug"\n',
    "[a.b.c]            # this is best practice\n[ d.e.f ]          # same as [d.e.f]\n"
    "[ g .  h  . i ]    # same as [g.h.i]\n[ j . \"ʞ\" . 'l' ]  # same as [j.\"ʞ\".'l']\n",
    "# [x] you\n# [x.y] don't\n# [x.y.z] need these\n[x.y.z.w] # for this to work\n\n"
    "[x] # defining a super-table afterward is ok\n",
    "[fruit.apple]\n[animal]\n[fruit.orange]\n",
    "[fruit]\n[animal]\n",
    'name = "Fido"\nbreed = "pug"\n\n[owner]\nname = "Regina Dogman"\nmember_since = 1999-08-04\n',
    'fruit.apple.color = "red"\nfruit.apple.taste.sweet = true\n',
    '[fruit]\napple.color = "red"\napple.taste.sweet = true\n\n[fruit.apple.texture]  # you can add sub-tables\n'
    "smooth = true\n",
    'name = { first = "Tom", last = "Preston-Werner" }\npoint = { x = 1, y = 2 }\nanimal = { type.name = "pug" }\n',
    '[name]\nfirst = "Tom"\nlast = "Preston-Werner"\n\n[point]\nx = 1\ny = 2\n\n[animal]\ntype.name = "pug"\n',
    '[[products]]\nname = "Hammer"\nsku = 738594937\n\n[[products]]  # empty table within the array\n\n[[products]]\n'
    'name = "Nail"\nsku = 284758393\n\ncolor = "gray"\n',
    '[[fruits]]\nname = "apple"\n\n[fruits.physical]  # subtable\ncolor = "red"\nshape = "round"\n\n'
    '[[fruits.varieties]]  # nested array of tables\nname = "red delicious"\n\n[[fruits.varieties]]\n'
    'name = "granny smith"\n\n\n[[fruits]]\nname = "banana"\n\n[[fruits.varieties]]\nname = "plantain"\n',
    "points = [ { x = 1, y = 2, z = 3 },\n           { x = 7, y = 8, z = 9 },\n           { x = 2, y = 4, z = 8 } ]\n",
) + each(
    "grammar",
    "key = # INVALID\n",
    'first = "Tom" last = "Preston-Werner" # INVALID\n',
    '= "no key name"  # INVALID\n',
    'str5 = """Here are three quotation marks: """."""  # INVALID\n',
    "apos15 = '''Here are fifteen apostrophes: ''''''''''''''''''  # INVALID\n",
    "invalid_float_1 = .7\n",
    "invalid_float_2 = 7.\n",
    "invalid_float_3 = 3.e+20\n",
) + each(
    "clash",
    'name = "Tom"\nname = "Pradyun"\n',
    'spelling = "favorite"\n"spelling" = "favourite"\n',
    "fruit.apple = 1\nfruit.apple.smooth = true\n",
    '[fruit]\napple = "red"\n\n[fruit]\norange = "orange"\n',
    '[fruit]\napple = "red"\n\n[fruit.apple]\ntexture = "smooth"\n',
    '[fruit]\napple.color = "red"\napple.taste.sweet = true\n[fruit.apple]\n',
    '[fruit]\napple.color = "red"\napple.taste.sweet = true\n[fruit.apple.taste]\n',
    '[product]\ntype = { name = "Nail" }\ntype.edible = false\n',
    '[product]\ntype.name = "Nail"\ntype = { edible = false }\n',
    '[fruit.physical]\ncolor = "red"\nshape = "round"\n\n[[fruit]]\nname = "apple"\n',
    "fruits = []\n\n[[fruits]] # Not allowed\n",
    '[[fruits]]\nname = "apple"\n\n[[fruits.varieties]]\nname = "red delicious"\n\n[fruits.varieties]\n'
    'name = "granny smith"\n',
    '[[fruits]]\n[fruits.physical]\ncolor = "red"\nshape = "round"\n\n[[fruits.physical]]\ncolor = "green"\n',
)

# Lines, comments and the space between parts.
LINES = each(
    "tree",
    "", "\n", "\r\n", " ", "\t \t", "#", "#\n", "# \t~", "# é ʞ 𝄞\n", "\n\n\n", "a=1", "a=1\r\n", " \ta\t= \t1 \t",
    "a=1#", "a=1\r\nb=2\r\n", "a=1\n\r\n\n", "a=1 # x\r\n", "[a]\r\nb=1\r\n", " [a] # x\n\tb = 1\n",
) + each(
    "grammar",
    "\r", "a=1\r", "a=1\rb=2", "a=1 b=2", "a=1;", "\ufeff", "\ufeffa=1", "#\x7f", "#\x00", "#\x1f", "#\r", "# x\ry",
    "a", "a\n=1", "a=\n1", "a=", "=", "=1", "a==1", "a=1=2", "\x0ba=1", "\x0c", "a=1\x0b", "\x00", "\u00a0a=1",
    "a=1\u00a0", "[a] b=1", "[a][b]", "a=1 [b]", "\u2028",
)

KEYS = each(
    "tree",
    "a-b_c = 1", "- = 1", "_ = 1", "-_ = 1", "1-2 = 3", "1e5 = 1", "true = 1", "inf = 1", "1979-05-27 = 1",
    "a.\"b\".'c' = 1", "'a.b' = 1", '"a\\u0062" = 1', '"\\t\\"" = 1', '"a b" = 1', "a\t.\tb = 1", "'\\' = 1",
    '"é" = 1\nz = 2\nZ = 3\n"ʞ" = 4\n"𝄞" = 5\n', "b.z = 1\nb.a = 2\na.b = 3\n", "a.b.c.d.e = 1", '"a"=1', "'a'=1",
    '"".""=1', "ab = 1\na = 2\nabc = 3\n\"\" = 4\n",
) + each(
    "grammar",
    "a.=1", ".a=1", "a..b=1", "a b=1", "é=1", "a!=1", "a/b=1", "a+b=1", '"a=1', "'a=1", '"a"b=1', 'a"b"=1', '"a\nb"=1',
    '"""a"""=1', "'''a'''=1", '"\\x41"=1', '"\\ud800"=1', '"""a=1', "a:b=1", "a@b = 1", "a,b = 1", "a\n.b=1", "a. =1",
    "a.\nb=1",
)

STRINGS = each(
    "tree",
    'a=""', "a=''", 'a="""\n"""', "a='''\n'''", 'a=""""""', "a=''''''", 'a="\\b\\t\\n\\f\\r\\"\\\\"', 'a="\\u0000\\u007F"',
    'a="\\uD7FF\\uE000\\uFFFF"', 'a="\\U00010000\\U0010FFFF\\U0000d7ff"', 'a="\\u00e9\\u00E9"', 'a="\\U0001D11E"',
    'a="\té𝄞~ !"', "a='\\b\\u\\'", "a='\té𝄞~ \"'", "a='#'#'", 'a="""a\nb"""', 'a="""\r\na\r\nb"""', "a='''\r\na\r\nb'''",
    'a="""\n\na"""', 'a="""a\\\n  b"""', 'a="""a\\  \n\t\n  b"""', 'a="""a\\\r\n  b"""', 'a="""\\\n"""', 'a="""\\\n\\\n"""',
    'a="""a\\\n\n\n"""', 'a="""a\\n\\\n\\tb"""', 'a=""""a"""', 'a="""""a"""', 'a="""a""""', 'a="""a"""""', "a='''''a'''''",
    "a=''''a''''", 'a="""\\"""\\""""', 'a="""""\\""""""', "a='''\\'''", 'a="""\'\'\'"""', "a='''\"\"\"'''",
    'a="""é\\u0041𝄞\n"""', 'a="""\\u0041\\U00000042"""', 'a = """ \\\n\n\n  """', 'x = "p\\u0041"', 'a="""\n\\\n x"""',
    "a='''\n'a'\n'''", 'a="""\\\\\n"""',
) + each(
    "grammar",
    'a="', 'a="\n"', 'a="a', "a='", "a='\n'", "a='a", "a=''''", 'a=""""', 'a=""" ', "a=''' ''", 'a="\x00"', 'a="\x1f"', 'a="\x7f"',
    "a='\x00'", "a='\x7f'", "a='\x1f'", 'a="""\x00"""', 'a="""\x7f"""', "a='''\x7f'''", 'a="""\r"""', "a='''a\rb'''", 'a="\r"',
    'a="\\a"', 'a="\\e"', 'a="\\x41"', 'a="\\0"', 'a="\\\'"', 'a="\\/"', 'a="\\ "', 'a="\\', 'a="\\"', 'a="\\\n"', 'a="\\u"', 'a="\\u123"',
    'a="\\u123g"', 'a="\\U0000004"', 'a="\\ud800"', 'a="\\uDFFF"', 'a="\\U0000D800"', 'a="\\U00110000"', 'a="\\UFFFFFFFF"',
    'a="\\u+041"', 'a="\\u 041"', 'a="""a""""""', "a='''a''''''", 'a="""\\ a"""', 'a="""\\  """', 'a="""\\\r"""', 'a="""\\x"""', "a=`a`",
    "a=“a”", "a=a", 'a="a"b', 'a="a""b"', 'a="""a"""b', "a='a''b'", 'a="""a\\"""',
)

INTEGERS = each(
    "tree",
    "a=0", "a=+0", "a=-0", "a=9", "a=10", "a=1_0", "a=9223372036854775807", "a=+9223372036854775807",
    "a=-9223372036854775808", "a=9_223_372_036_854_775_807", "a=0x7FFFFFFFFFFFFFFF", "a=0o777777777777777777777",
    "a=0b" + "1" * 63, "a=0x0", "a=0x00", "a=0o0", "a=0b0", "a=0xaF_09", "a=0x0_0_1", "a=0o7_0", "a=0b1_0_1",
    "a=0x0000000000000000000000000001", "a=0xe", "a=0xe1", "a=0b" + "0" * 70 + "1",
) + each(
    "grammar",
    "a=9223372036854775808", "a=-9223372036854775809", "a=0x8000000000000000", "a=0xFFFFFFFFFFFFFFFF",
    "a=0o1000000000000000000000", "a=0b1" + "0" * 63, "a=00", "a=01", "a=+01", "a=-01", "a=0_1", "a=1__0", "a=_1", "a=1_",
    "a=+_1", "a=+", "a=-", "a=++1", "a=+-1", "a=0x", "a=0x_1", "a=0x1_", "a=0x1__2", "a=+0x1", "a=-0x1", "a=0X1", "a=0xg",
    "a=0o8", "a=0o", "a=0O7", "a=-0o7", "a=0b2", "a=0b", "a=0B1", "a=+0b1", "a=1a", "a=a1", "a=1 2", "a=1,", "a=0x1.0",
    "a=99999999999999999999999999999999999999",
)

FLOATS = each(
    "tree",
    "a=0.0", "a=-0.0", "a=+0.0", "a=0.00", "a=1.5", "a=1e5", "a=1E5", "a=1e+5", "a=1e-5", "a=1e05", "a=1e00", "a=0e0", "a=1.5e5",
    "a=1_0.5_0e1_0", "a=0.1_2", "a=1e1_0", "a=1.00", "a=10.01", "a=inf", "a=-nan", "a=1e9999", "a=9007199254740993.0",
    "a=3.141_592e-0_1",
) + each(
    "grammar",
    "a=1.", "a=.1", "a=1.e5", "a=1e", "a=1e+", "a=e5", "a=1e5.5", "a=1.5.5", "a=01.5", "a=00.5", "a=-01e1", "a=1_.5", "a=1._5", "a=1.5_",
    "a=1__0.5", "a=1e_5", "a=1e5_", "a=1e1__0", "a=Inf", "a=NaN", "a=INF", "a=+ inf", "a=infinity", "a=na", "a=in", "a=1f", "a=0x1p3", "a=_1.0",
    "a=--inf", "a=1.5e1.0", "a=1e 5",
)

BOOLEANS = each("tree", "a=true", "a=false # x") + each(
    "grammar", "a=True", "a=TRUE", "a=truee", "a=tru", "a=t", "a=falsey", "a=1true", "a=true1", "a=+true", "a=yes", "a=null", "a=true false")

DATES = each(
    "tree",
    "a=1979-05-27t07:32:00z", "a=1979-05-27T07:32:00.1Z", "a=1979-05-27 00:32:00.999999-07:00", "a=1979-05-27T23:59:59+23:59",
    "a=1979-05-27T00:00:00-00:00", "a=1979-05-27T07:32:00.123456789012345Z", "a=1979-01-01", "a=1979-12-31", "a=9999-12-31", "a=0001-01-01",
    "a=00:00:00", "a=23:59:59", "a=23:59:59.0", "a=1979-05-27 # x", "a=1979-05-27 \n", "a=[1979-05-27,07:32:00 ,1979-05-27 07:32:00]",
    "a=2000-02-29", "a=1979-05-27T07:32:00.0", "a=1979-05-27 07:32:00 \nb=1",
    # none but the ranges of the parts are tested
    "a=1979-02-31", "a=1979-02-29", "a=1979-04-31T00:00:00Z", "a=0000-01-01", "a=23:59:60", "a=1979-05-27T12:00:60Z", "a=00:00:60.5",
) + each(
    "grammar",
    "a=1979-00-01", "a=1979-13-01", "a=1979-01-00", "a=1979-01-32", "a=24:00:00", "a=00:60:00", "a=00:00:61", "a=1979-05-27T24:00:00",
    "a=1979-05-27T00:60:00Z", "a=1979-05-27T00:00:61Z", "a=1979-05-27T00:00:00+24:00", "a=1979-05-27T00:00:00+00:60", "a=1979-5-27",
    "a=979-05-27", "a=11979-05-27", "a=1979-05-7", "a=1979/05/27", "a=1979-05-27T", "a=1979-05-27T07", "a=1979-05-27T07:32", "a=07:32",
    "a=7:32:00", "a=07:32:0", "a=07:32:00.", "a=07:32:00Z", "a=07:32:00+01:00", "a=1979-05-27Z", "a=1979-05-27 07:32", "a=1979-05-27  07:32:00",
    "a=1979-05-27T07:32:00+1:00", "a=1979-05-27T07:32:00+01", "a=1979-05-27T07:32:00 Z", "a=1979-05-27T07:32:00.Z", "a=1979-05-27_07:32:00",
    "a=1979-05-27\t07:32:00", "a=1979-05-27T07:32:00ZZ", "a=-1979-05-27", "a=+1979-05-27", "a=1979-05", "a=1979-05-27T07:32:00+0100",
    "a=1979-05-27T 07:32:00", "a=07:32:00.5.5", "a=1_979-05-27", "a=07:32:00,5",
)


def nested(opening, closing, count, inside=""):
    return "a=" + opening * count + inside + closing * count


ARRAYS = each(
    "tree",
    "a=[]", "a=[ ]", "a=[\n]", "a=[#\n]", "a=[1]", "a=[1,]", "a=[ 1 , 2 ]", "a=[1,2,]", "a=[\n1\n,\n2\n]", "a=[1#,\n,#]\n2#\n]",
    "a=[\r\n1,\r\n]", "a=[[],[[]]]", 'a=[1,"a",1.5,true,[],{}]', "a=[1 , # x\n\n # y\n 2\n # z\n ]", "a=[\t1\t]", "a=[{},{a=1},{a=2}]",
    "a=[[1]]\n[b]\n", nested("[", "]", 64), nested("[", "]", 64, "1"), nested("[{a=", "}]", 32, "1"), nested("{a=", "}", 64, "1"),
    nested("[", "]", 63, "{}"), "a=[1,\n\n\n2,\n]",
) + each(
    "grammar",
    "a=[", "a=]", "a=[1", "a=[1,", "a=[,]", "a=[,1]", "a=[1,,2]", "a=[1 2]", "a=[1,,]", "a=[1;2]", "a=[#]", "a=[1 #]", "a=[1]]", "a=[\r]", "a=[a]",
    "a=[a=1]", "a=[1\x0b]", "a=[#\x7f\n]", nested("[", "]", 65), nested("[{a=", "}]", 33, "1"), nested("{a=", "}", 65, "1"), nested("[", "]", 64, "{}"),
    "a=[1]1", "a=[1\n2]", "a=[[1]", "a=[\ufeff]",
)

INLINE_TABLES = each(
    "tree",
    "a={}", "a={ }", "a={\t}", "a={b=1}", "a={ b = 1 , c = 2 }", "a={b.c=1}", "a={b.c=1,b.d=2}", "a={'b'=1,\"c\"=2}", "a={b={c={}}}", "a={b=[\n1,\n2\n]}",
    'a={b="""\n"""}', "a={b=1}#", "a={b={},c={}}", "a.b={c.d=1}", "a={z=1,y=2,x=3}", "a={b=[{c=1},{c=1}]}", "a={b=1,c={b=1}}", "a=[{b=1},{b=1}]",
    "a={b.c.d=1,b.c.e=2,b.f=3}", "a={b={c=1},d.e={c=1}}", "[t]\na={b=1}\n[t.c]\n",
) + each(
    "grammar",
    "a={", "a=}", "a={b}", "a={b=}", "a={b=1", "a={b=1,}", "a={,}", "a={,b=1}", "a={b=1,,c=2}", "a={b=1 c=2}", "a={\n}", "a={b=1\n}", "a={\nb=1}", "a={b=1,\nc=2}",
    "a={b=\n1}", "a={#\n}", "a={b=1#}", "a={b=1}}", "a={[b]}", "a={1}", "a={b=1;c=2}", "a={b:1}", "a={=1}", "a={b=1}c=2", "a={b\n=1}",
)

HEADERS = each(
    "tree",
    "[a]", "[ a ]", "[\ta\t]", "[a]#", "[a]\n[b]\n[c]", "['a']", '["a"]', "[a.b]", "[a . b]", '[a."b.c".\'d\']', "[[a]]", "[[ a ]]", "[[a.b]]", "[[a]]#", "[-]", "[1.2]",
    "[a]\n[a.b]\n[a.b.c]\n", "[a.b.c]\n[a.b]\n[a]\n", "[a]\nx=1\n[b]\nx=1\n[a.c]\nx=1\n", "[[a]]\n[[a]]\n[[a]]\n", "[[a.b]]\nx=1\n[[a.b]]\nx=2\n[a]\ny=1\n",
    '[""]', "[[fruit]]\nkind = 1\n[fruit.taste]\nsweet = 2\n[[fruit]]\nkind = 3\nsize.least = 4\nsize.most = 5\n",
    "[[a]]\n[a.b]\n[[a]]\n[a.b]\n", "[[a]]\n[[a.b]]\n[[a.b]]\n[[a]]\n[[a.b]]\n", "[b]\n[a]\n", "x=1\n[t]\nx=2\n", "[a.b]\n[a.c]\n[a]\nd=1\n",
) + each(
    "grammar",
    "[]", "[[]]", "[", "[[", "[a", "[[a", "[a]]", "[[a]", "[[a] ]", "[ [a]]", "[a.]", "[.a]", "[a..b]", "[a b]", "[a\n]", "[\na]", "[a]b=1", "[a=1]", "[a,b]", "[[a]]]", "[[[a]]]",
    "[é]", "[a#]", "[#]\n", '["""a"""]', "[a]\x0b", "[ ]", "[[a]b]", "[\"a]", "[a\r]",
)

LONG = each(
    "tree",
    ".".join("a" * 64) + "=1", "[" + ".".join("a" * 64) + "]", "[[" + ".".join("a" * 64) + "]]", "a={" + ".".join("b" * 64) + "=1}",
    "[" + ".".join("a" * 64) + "]\n" + ".".join("b" * 64) + "=" + "[" * 64 + "]" * 64 + "\n",
    # inline tables in one another, each under a key of as many parts
    (".".join("a" * 64) + "={") * 64 + ".".join("a" * 64) + "=1" + "}" * 64,
) + each(
    "grammar",
    ".".join("a" * 65) + "=1", "[" + ".".join("a" * 65) + "]", "[[" + ".".join("a" * 65) + "]]", "a={" + ".".join("b" * 65) + "=1}",
)

CLASHES = each(
    "tree",
    # what a header may pass, name and enter
    "[a.b.c]\n[a]\nb.x=1\n", "a.b=1\na.c=2\n", "[a.b]\n[a]\nc.d=1\n", "a.b=1\n[a.c]\n", "a.b.c=1\n[a.b.d]\n", "[[a]]\nb=1\n[a.c]\n[[a]]\nb=1\n[a.c]\n",
    "[[a]]\nb.c=1\n[[a]]\nb.c=1\n", "[a]\nb=1\n[c]\nb=1\n", "a={b=1}\n[c]\na={b=1}\n", "[a.b]\n[a]\n[a.c]\n", "[[a.b.c]]\n[a]\n[a.b]\n", "a=[{b.c=1,b.d=2}]\n",
    "[a]\n[a.b]\nc.d=1\nc.e=2\n[a.b.c.f]\n", "a.b={}\na.c={}\n", "[[a]]\n[a.b.c]\n[[a]]\n[a.b]\nc=1\n",
    "[a]\nb.c=1\nb.d.e=2\n[a.b.d.f]\n[a.b.g]\n", "x.y=1\nz=2\nx.w=3\n",
) + each(
    "clash",
    "a=1\na=2\n", "a=1\n\"a\"=2\n", "a=1\n'a'=2\n", '"\\u0061"=1\na=2\n', "a=1\na.b=2\n", "a.b=1\na=2\n", "a.b=1\na.b=2\n", "a.b=1\na.b.c=2\n", "[a]\n[a]\n", "[a.b]\n[a.b]\n",
    "[a]\n[\"a\"]\n", "a=1\n[a]\n", "a=1\n[a.b]\n", "a=1\n[[a]]\n", "a=1\n[[a.b]]\n", "a={}\n[a]\n", "a={}\n[a.b]\n", "a={}\na.b=1\n", "a={b.c=1}\n[a.b]\n", "a={b={}}\n[a.b.c]\n",
    "a={}\n[[a]]\n", "a=[]\n[a]\n", "a=[]\n[a.b]\n", "a=[{}]\n[a.b]\n", "a=[{}]\n[[a]]\n", "a=[{}]\na.b=1\n", "a.b=1\n[a]\n", "a.b.c=1\n[a.b]\n", "a.b=1\n[[a]]\n", "a.b=1\n[a.b.c]\n",
    "[a]\nb.c=1\n[a.b]\n", "[a]\nb.c=1\n[[a.b]]\n", "[a]\nb=1\n[a.b]\n", "[a.b]\n[a]\nb.c=1\n", "[a.b]\n[a]\nb=1\n", "[a.b.c]\n[a]\nb.c.d=1\n", "[a.b.c]\n[a]\nb.x=1\n[a.b]\n",
    "[a.b.c]\n[a]\nb=1\n", "[[a]]\n[a]\n", "[a]\n[[a]]\n", "[a.b]\n[[a]]\n", "[[a.b]]\n[a.b]\n", "[[a.b]]\n[[a]]\n", "[[a.b]]\n[a]\nb.c=1\n", "[[a.b]]\n[a]\nb=1\n",
    "[[a]]\n[a.b]\n[a.b]\n", "[[a]]\nb=1\nb=2\n", "[[a]]\n[[a]]\nb=1\n[a.b]\n", "[[a]]\n[a.b]\n[[a.b]]\n", "a={b=1,b=2}\n", "a={b.c=1,b=2}\n", "a={b=1,b.c=2}\n", "a={b={},b.c=1}\n",
    "a={b.c=1,b.c=2}\n", "a=[{b=1,b=2}]\n", "a=[{b=1},{b=1,c={d=1,d=2}}]\n", "a={b=[{c=1,c=2}]}\n", "a=[[[{b=1,b=2}]]]\n", "a={b={c=1},b={c=1}}\n", "a={b={c={d=1,d=2}}}\n",
    "a={b.c={},b.c.d=1}\n", "[a]\nb={c=1}\n[a.b]\n", "[a]\nb={c=1}\nb.d=2\n", "[a]\nb={c=1}\n[a.b.d]\n", "a=1\nb=2\na=3\nb=4\n", "[b]\na=1\n[c]\na=1\n[b]\n", "[a]\na=1\na=2\n",
    # the first in the text is told, and an assignment's own key before those in its value
    "a=1\na={b=1,b=2}\n", "a={b=1,b=2}\na=1\n", "[a]\n[a]\n[b]\n[b]\n", "[a.b]\n[a.b]\n[a]\n", "a=1\n[a.b.c]\n", "a.b=1\n[x]\n[a.b.c.d]\n",
    "\"é\".a=1\n\"é\".a=2\n", "[\"𝄞\"]\n['𝄞']\n", "a = { \"é\" = 1, é_ = 2 }\n".replace("é_", "\"é\""),
)

# Characters of several bytes: the ranges count bytes.
WIDE = each(
    "tree",
    '"é" = "ü"\n', "'ʎǝʞ'.\"𝄞\" = 'ñ' # ü\n", '["é"."ʞ"]\n"ü" = ["ñ", """\n𝄞"""]\n', 'a = "é\\u00e9"\nb = "\u0080\ud7ff\ue000\uffff\U0010ffff"\n', "# ü\na = 1\n",
    'a = { "é" = "ü", b.\'ʞ\' = 1 }\n',
)

# A text of every form, which ends at each byte but the first ones: what each prefix of it is, tomllib says.
EVERY_FORM = (
    "# \u00e9\r\n[ 'a'.\"\\u00e9\" . b-1 ]\nc.d = \"p\\t\\\"\"\ne = '\u20ac'\nf = \"\"\"\n\"q\" \\\n  r\"\"\"\ng = '''\n's''''\n"
    "h = [ -1_0, +0x1F, 0o7, 0b1, # t\n 1.5e-3, -inf, nan, ]\n"
    "i = { j = true , k.l = false }\nm = 1979-05-27T07:32:00.5-08:00\nn = 1979-05-27 07:32:00\no = 07:32:01\n[[p]]\nq = {}\n"
)


def prefixes(text):
    """Each prefix of the text, and what it is."""
    return [(text[:size], "tree" if is_accepted(text[:size]) else "grammar") for size in range(3, len(text) + 1)]


CUT = prefixes(EVERY_FORM)

# Three small ones, read by hand below.
SMALL = each("clash", "a = 1\na = 2\n") + each("tree", "a.b = [1, 2]", "[a.b]\nc = 1\n[a]\n")

GROUPS = [DOCUMENT, LINES, KEYS, STRINGS, INTEGERS, FLOATS, BOOLEANS, DATES, ARRAYS, INLINE_TABLES, HEADERS, LONG, CLASHES, WIDE, CUT, SMALL]

# Answers worked out by hand.
BY_HAND = {
    "": {"span": [0, 0], "table": []},
    "a=1\na=2\n": "clash 4..5",
    "a = 1\na = 2\n": "clash 6..7",
    "a.b = [1, 2]": {"span": [0, 12], "table": [{"key": "a", "span": [0, 1], "value": {"span": [0, 1], "table": [
        {"key": "b", "span": [2, 3], "value": {"span": [6, 12], "array": [
            {"integer": 1, "span": [7, 8]}, {"integer": 2, "span": [10, 11]}]}}]}}]},
    "[a.b]\nc = 1\n[a]\n": {"span": [0, 16], "table": [{"key": "a", "span": [1, 2], "value": {"span": [1, 2], "table": [
        {"key": "b", "span": [3, 4], "value": {"span": [3, 4], "table": [
            {"key": "c", "span": [6, 7], "value": {"integer": 1, "span": [10, 11]}}]}}]}}]},
    'x = "p\\u0041"': {"span": [0, 13], "table": [{"key": "x", "span": [0, 1], "value": {"text": "pA", "span": [5, 12]}}]},
    "[a.b.c]\n[a]\nb.x=1\n[a.b]\n": "clash 21..22",
    "a={b=1,b=2}\n": "clash 7..8",
    '"é".a=1\n"é".a=2\n': "clash 14..15",
    "a=[]\n[a.b]\n": "clash 6..7",
    "[a]\nb.c=1\n[[a.b]]\n": "clash 14..15",
    'a="""\n"""': {"span": [0, 9], "table": [{"key": "a", "span": [0, 1], "value": {"multiline": "", "span": [5, 6]}}]},
    "a.b={c.d=1}": {"span": [0, 11], "table": [{"key": "a", "span": [0, 1], "value": {"span": [0, 1], "table": [
        {"key": "b", "span": [2, 3], "value": {"span": [4, 11], "table": [
            {"key": "c", "span": [5, 6], "value": {"span": [5, 6], "table": [
                {"key": "d", "span": [7, 8], "value": {"integer": 1, "span": [9, 10]}}]}}]}}]}}]},
    "[b]\n[a]\n": {"span": [0, 8], "table": [
        {"key": "a", "span": [5, 6], "value": {"span": [5, 6], "table": []}},
        {"key": "b", "span": [1, 2], "value": {"span": [1, 2], "table": []}}]},
    "[[a]]\n[[a]]\n[[a]]\n": {"span": [0, 18], "table": [{"key": "a", "span": [2, 3], "value": {"span": [2, 3], "array": [
        {"span": [2, 3], "table": []}, {"span": [8, 9], "table": []}, {"span": [14, 15], "table": []}]}}]},
    '"é" = "ü"\n': {"span": [0, 12], "table": [{"key": "é", "span": [1, 3], "value": {"text": "ü", "span": [8, 10]}}]},
}


def differs(text, answer):
    """Why tomllib does not have to agree, or an empty text."""
    if re.search(r"\d{19,}|\d_\d{3}_\d{3}_\d{3}_\d{3}_\d{3}_\d{3}|0[xob][0-9A-F]{16,}", text) and answer == "grammar":
        return "integers of any size"
    if isinstance(answer, dict) and re.search(r"1979-02-(?:29|31)|1979-04-31|0000-01-01|:60", text):
        return "dates that the calendar has"
    if answer == "grammar" and (text.count(".") >= SEGMENTS or re.search(r"\[{32,}|(\[?\{a=){33,}", text)):
        return "no limits of nesting"
    return ""


def check(text, verdict, answer):
    """The reading of a case agrees with what is said beside it, and with tomllib."""
    if verdict_of(answer) != verdict:
        sys.exit("%r: %s is said, %s is read" % (text, verdict, line_of(answer)))
    if text in BY_HAND and BY_HAND[text] != answer:
        sys.exit("%r: by hand %r, read %r" % (text, BY_HAND[text], answer))
    if not differs(text, answer) and not agrees(text, answer):
        sys.exit("%r: tomllib does not read %s" % (text, line_of(answer)))
    if differs(text, answer) and agrees(text, answer):
        sys.exit("%r: tomllib reads it so, where it should not" % text)


def main():
    folder = sys.argv[1] if len(sys.argv) > 1 else os.path.join(os.path.dirname(__file__), "../../../crates/deny_cases_toml")
    cases, answers = [], []
    texts = set()
    for text, verdict in itertools.chain.from_iterable(GROUPS):
        if text in texts:
            sys.exit("%r stands twice" % text)
        texts.add(text)
        answer = reading(text)
        check(text, verdict, answer)
        cases.append(json.dumps(text))
        answers.append(line_of(answer))
    for text in BY_HAND:
        if text not in texts:
            sys.exit("%r is no case" % text)
    for name, lines in (("stdin", cases), ("stdout", answers)):
        with open(os.path.join(folder, name), "w", encoding="utf-8", newline="\n") as file:
            file.write("".join(line + "\n" for line in lines))


def with_deep_stack(work):
    """Does the work where recursion may go down by thousands: a case nests so many tables."""
    raised = []

    def body():
        try:
            work()
        except BaseException as error:
            raised.append(error)

    sys.setrecursionlimit(100_000)
    threading.stack_size(512 << 20)
    worker = threading.Thread(target=body)
    worker.start()
    worker.join()
    if raised:
        raise raised[0]


if __name__ == "__main__":
    with_deep_stack(main)
