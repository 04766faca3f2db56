"""Inputs at the edges of what a request is, each with what a scan of it answers, worked out by hand. cases.py writes them as cases.

An input is written as a text, since Python's numbers and objects hold less than JSON's. An answer is the refusal, or the scan's rows,
the blocks that it skipped and its reads.
"""
import json

from wire import TRUE, contains, item, lit, many

X = '[{"name":"x","type":"i64"}]'
FIVE = '[{"rows":1,"values":[[5]]}]'
PROJECTION = item("x").hex()
EMPTY = "rows / skipped / reads"
READ_FIVE = "rows 5 / skipped / reads 0 x"
RULED_OUT = contains(lit(many("i32"), []), lit("i32", 1)).hex()
TOP, COLUMNS, BLOCKS, STATS = ("BadRequest(%s)" % place for place in ["Top", "Columns", "Blocks", "Stats"])
NAME_TWICE, DEEP, BAD_PATH, STAT_TWICE, STAT_COUNT, STAT_TYPE, WRONG_LENGTH, WRONG_VALUE = (
    "BadTable(%s)" % refusal for refusal in
    ["DuplicateName", "DeepType", "BadStatPath", "DuplicateStat", "WrongStatCount", "WrongStatType", "WrongLength", "WrongValue"])


def quoted(text):
    return json.dumps(text, ensure_ascii=False)


def members(columns=X, blocks=FIVE, stats="[]", filter_text=quoted(TRUE.hex()), projection=quoted(PROJECTION)):
    """The members of a request, each of which is a text."""
    return ['"columns":' + columns, '"blocks":' + blocks, '"stats":' + stats, '"filter":' + filter_text, '"projection":' + projection]


def object_of(texts):
    return "{" + ",".join(texts) + "}"


def asked(*places, **named):
    return object_of(members(*places, **named))


def of(told, *inputs):
    """Cases of these inputs, which have one answer."""
    return [{"input": text, "scan": told} for text in inputs]


WHOLE = asked()


# Texts: no JSON, and no object of the five members.

def nested(levels):
    return "[" * levels + "]" * levels


TEXTS = [
    *of("BadJson", "", "{", "nul", "\ufeff" + WHOLE, WHOLE + "x", WHOLE + WHOLE, WHOLE[:-1], WHOLE[:-1] + ",}", nested(128)),
    *of("BadJson", *[asked(X.replace("x", name)) for name in ["\\ud800", "\\x", "\n"]]),
    *of("BadJson", *[asked(blocks=FIVE.replace("5", number)) for number in ["01", "+1", "1.", ".5", "0x1", "NaN", "1e999", "1.8e308", "9" * 400]]),
    *of(TOP, "[]", "null", "5", quoted(WHOLE), "[" + WHOLE + "]", "{}", nested(127), WHOLE.replace("columns", "Columns")),
    *of(TOP, *[object_of(members()[:i] + members()[i + 1:]) for i in range(5)]),
    *of(TOP, object_of(members() + ['"more":1']), object_of(members()[1:] + ['"more":1'])),
    *of(READ_FIVE, WHOLE, " \t\r\n" + WHOLE + "\n", object_of(reversed(members())), WHOLE.replace("columns", "c\\u006flumns")),
    # a member given twice counts once, with its last value
    *of(READ_FIVE, object_of(['"columns":7', *members()]), object_of(['"blocks":[1.5]', *members()]),
        asked(X.replace('"name":', '"name":"y","name":')), asked(blocks=FIVE.replace('"rows":', '"rows":2,"rows":'))),
    *of(COLUMNS, object_of([*members(), '"columns":7'])),
    *of(WRONG_LENGTH, asked(blocks=FIVE.replace('"rows":1', '"rows":1,"rows":2'))),
]


# Columns and types: no columns, no types, names that stand twice, and levels.

def column(kind):
    return '[{"name":"x","type":%s}]' % kind


def lists(number, inner):
    """So many lists around a type."""
    return '{"list":' * number + inner + ',"nullable":true}' * number


def struct(*fields):
    return '{"struct":[%s],"nullable":true}' % ",".join('{"name":"%s","type":%s}' % field for field in fields)


def structs(number, inner):
    """So many structs of one field around a type."""
    return '{"struct":[{"name":"a","type":' * number + inner + '}],"nullable":true}' * number


def columns(number):
    return "[" + ",".join('{"name":"c%d","type":"u8"}' % i for i in range(number)) + "]"


NO_COLUMNS = ["{}", "null", '"x"', "[1]", "[1.5]", "[{}]", '[["x","i64"]]', '[{"name":"x"}]', '[{"type":"i64"}]', '[{"name":1,"type":"i64"}]',
              '[{"name":"x","type":"i64","more":1}]', '[{"name":"x","type":"i64"},1]']
NO_TYPES = ["64", "null", "true", "[]", '["i64"]', "{}", '{"nullable":true}', '{"list":"i64"}', '{"list":"i64","nullable":1}',
            '{"list":"i64","nullable":null}', '{"list":"i64","nullable":true,"more":1}', '{"list":"i65","nullable":true}',
            '{"List":"i64","nullable":true}', '{"list":"i64","struct":[]}', '{"struct":"i64","nullable":true}', '{"struct":{},"nullable":true}',
            '{"struct":[],"nullable":0}', '{"struct":["i64"],"nullable":true}', '{"struct":[{"name":"a"}],"nullable":true}',
            '{"struct":[{"name":1,"type":"i64"}],"nullable":true}', '{"struct":[{"name":"a","type":"i64","more":0}],"nullable":true}',
            '{"struct":[{"name":"a","type":null}],"nullable":true}']
A, B = ("a", '"u8"'), ("b", '"u8"')
TYPES = [
    *of(COLUMNS, *[asked(text, "7", "7", "7", "7") for text in NO_COLUMNS]),
    *of(COLUMNS, *[asked(column(quoted(name))) for name in ["", "?", "i64??", "?i64", "i65", "I64", " i64", "i64 ", "u128", "f64", "list", "null"]]),
    *of(COLUMNS, *[asked(column(kind)) for kind in NO_TYPES]),
    *of(EMPTY, asked(columns(1024), "[]", projection=quoted(item("c1023").hex()))),
    *of(COLUMNS, asked(columns(1025), "[]")),
    *of(NAME_TWICE, asked(X[:-1] + "," + X[1:], "[]"), asked(column(struct(A, A)), "[]"), asked(column(struct(A, B, A)), "[]"),
        asked(column(lists(1, struct(A, A))), "[]"), asked(column(struct(A, ("b", struct(B, B)))), "[]"), asked(column(lists(64, struct(A, A))), "[]")),
    *of(EMPTY, asked(column(struct(A, ("b", struct(A, B)), ("x", struct()))), "[]"), asked(column(struct(A, ("A", '"u8"'))), "[]")),
    *of(EMPTY, *[asked(column(kind), "[]") for kind in [lists(63, '"bool"'), lists(62, struct(A)), lists(63, struct()), lists(61, struct(("a", struct(A))))]]),
    *of(DEEP, *[asked(column(kind), "[]") for kind in [lists(64, '"bool"'), lists(63, struct(A)), struct(("a", lists(63, '"u8"'))), lists(124, '"u8"')]]),
    *of("BadJson", asked(column(lists(125, '"u8"')), "[]")),
    # three levels stand around a type, and each struct is three: 126 levels, 127, and 128 or more, which aren't read
    *of(EMPTY, *[asked(column(structs(41, inner)), "[]") for inner in ['"u8"', lists(1, '"u8"')]]),
    *of("BadJson", *[asked(column(structs(41, inner)), "[]") for inner in [lists(2, '"u8"'), struct()]], asked(column(structs(42, '"u8"')), "[]")),
]


# Blocks: their form, numbers of rows, and their shape beside the columns.

def rows(*numbers):
    """A request of no columns and of blocks of so many rows, all of which the filter rules out."""
    blocks = ",".join('{"rows":%s,"values":[]}' % number for number in numbers)
    return asked("[]", "[%s]" % blocks, filter_text=quoted(RULED_OUT), projection=quoted(RULED_OUT))


NO_BLOCKS = ["{}", "null", "[1]", "[{}]", '[{"rows":1}]', '[{"values":[[5]]}]', '[{"rows":1,"values":{}}]', '[{"rows":1,"values":[5]}]',
             '[{"rows":1,"values":[{}]}]', '[{"rows":1,"values":[[5]],"more":0}]']
NO_NUMBERS = ["1.5", "1e3", "1E0", "-0", "0.0", "1e-400", "1.7e308", "-1", "9223372036854775808", "18446744073709551615", "18446744073709551616", "1048577",
              "1048576.0", '"1"', "null", "true", "[]"]
TWO_COLUMNS = '[{"name":"x","type":"i64"},{"name":"y","type":"bool"}]'
WRONG_SHAPES = ['[{"rows":1,"values":[]}]', '[{"rows":1,"values":[[5]]}]', '[{"rows":1,"values":[[5],[true],[5]]}]', '[{"rows":1,"values":[[5],[]]}]',
                '[{"rows":1,"values":[[5],[true,true]]}]', '[{"rows":0,"values":[[5],[true]]}]', '[{"rows":0,"values":[]}]', '[{"rows":2,"values":[[5],[true]]}]',
                '[{"rows":1,"values":[[5],[true]]},{"rows":1,"values":[[5]]}]', '[{"rows":1,"values":[[true],[5]]},{"rows":1,"values":[[5]]}]']
BLOCK_TEXTS = [
    *of(BLOCKS, *[asked(blocks=text, stats="7") for text in NO_BLOCKS]),
    *of(BLOCKS, *[rows(number) for number in NO_NUMBERS], rows(1048576, 1), rows(0, 1048577), rows(524288, 524288, 1)),
    *of("rows / skipped 0 / reads", rows(0), rows(1), rows(1048576)),
    *of("rows / skipped 0 1 / reads", rows(1048576, 0), rows(1048575, 1)),
    *of(WRONG_LENGTH, *[asked(TWO_COLUMNS, text) for text in WRONG_SHAPES], asked("[]")),
    *of("rows 5 / skipped / reads 1 x", asked(TWO_COLUMNS, '[{"rows":0,"values":[[],[]]},{"rows":1,"values":[[5],[true]]}]')),
]


# Cells: numbers in each width, the other types, and values at depth.

RANGES = {
    "u8": (0, 255), "u16": (0, 65535), "u32": (0, 4294967295), "u64": (0, 18446744073709551615), "i8": (-128, 127), "i16": (-32768, 32767),
    "i32": (-2147483648, 2147483647), "i64": (-9223372036854775808, 9223372036854775807)}


def cell(kind, text):
    return asked(column(kind), '[{"rows":1,"values":[[%s]]}]' % text)


def number_told(kind, number):
    """What is answered to a cell of a whole number."""
    low, high = RANGES[kind]
    if not -9223372036854775808 <= number <= 18446744073709551615:
        return BLOCKS
    return "rows %d / skipped / reads 0 x" % number if low <= number <= high else WRONG_VALUE


def numbers(kind):
    """Cells of a width: numbers that aren't whole, those around its range, and those around the ranges of 64 bits."""
    low, high = RANGES[kind]
    around = sorted({low - 1, low, high, high + 1, 9223372036854775808, 18446744073709551615, 18446744073709551616})
    return [*of(BLOCKS, *[cell(quoted(kind), text) for text in ["1.5", "1.0", "1e3", "-0"]]),
            *[case for number in around for case in of(number_told(kind, number), cell(quoted(kind), str(number)))]]


DEEPER = '{"list":%s,"nullable":false}' % struct(("a", '{"list":"u8?","nullable":false}'))
CELLS = [
    *[case for kind in RANGES for case in numbers(kind)],
    *of(WRONG_VALUE, *[cell(quoted("i64"), text) for text in ["null", "true", '"5"', "[5]", "{}"]]),
    *of(WRONG_VALUE, *[cell(quoted("bool"), text) for text in ["null", "0", "1", '"true"', "[]"]]),
    *of(WRONG_VALUE, *[cell(quoted("utf8"), text) for text in ["null", "5", "true", "[]"]]),
    *of(BLOCKS, *[cell(quoted(kind), "1.5") for kind in ["bool", "bool?", "utf8", "utf8?"]]),
    *of("rows null / skipped / reads 0 x", *[cell(quoted(kind + "?"), "null") for kind in [*RANGES, "bool", "utf8"]], cell(lists(1, '"u8"'), "null"),
        cell(struct(A), "null")),
    *of("rows true / skipped / reads 0 x", cell(quoted("bool"), "true")),
    *of('rows "é" / skipped / reads 0 x', cell(quoted("utf8"), '"\\u00e9"')),
    *of('rows [{"a":[1,null]},null] / skipped / reads 0 x', cell(DEEPER, '[{"a":[1,null]},null]')),
    *of(WRONG_VALUE, *[cell(DEEPER, text) for text in
                       ["null", "5", "{}", '{"a":[1]}', "[[1]]", "[{}]", '[{"b":[1]}]', '[{"a":[1],"b":[1]}]', '[{"a":null}]', '[{"a":{}}]', '[{"a":[256]}]',
                        '[{"a":[-1]}]', '[{"a":["1"]}]', '[{"a":[[]]}]', '[{"a":[1]},{"a":[true]}]']]),
    *of(BLOCKS, *[cell(DEEPER, text) for text in ["1.5", '[{"a":[1.5]}]', '[{"a":[-0]}]', '[{"a":[18446744073709551616]}]', '[{"b":1.5}]', '{"a":{"b":[[1e3]]}}']]),
    *of("rows {} / skipped / reads 0 x", cell(struct(), "{}")),
    *of('rows {"a":1} / skipped / reads 0 x', cell(struct(A), '{"a":true,"a":1}')),
    *of(WRONG_VALUE, cell(struct(A), '{"a":1,"a":true}'), cell(struct(A), '{"A":1}'), cell(struct(A), "[1]"), cell(struct(), "[]")),
]


# Statistics: their form, their paths, and their values.

TREE = '[{"name":"x","type":"i64"},{"name":"l","type":%s},{"name":"t","type":%s}]' % (
    lists(1, struct(A)), struct(("a", '"utf8?"'), ("u", struct(("b", '"bool"'))), ("l", lists(1, '"u8"'))))


def stat(path, kind="min", values="[]"):
    return '{"path":%s,"stat":"%s","values":%s}' % (json.dumps(path), kind, values)


def told(*stats, blocks="[]"):
    return asked(TREE if blocks == "[]" else X, blocks, "[%s]" % ",".join(stats))


def valued(kind, name, text):
    """A statistic of a column of a type with one value, over a table without rows."""
    return asked(column(kind), '[{"rows":0,"values":[[]]}]', "[%s]" % stat(["x"], name, "[%s]" % text))


NO_STATS = ["{}", "null", "[1]", "[{}]", '[{"path":["x"],"stat":"min"}]', '[{"path":["x"],"stat":"min","values":[5],"more":0}]',
            '[{"path":"x","stat":"min","values":[5]}]', '[{"path":[1],"stat":"min","values":[5]}]', '[{"path":[["x"]],"stat":"min","values":[5]}]',
            '[{"path":["x"],"stat":"Min","values":[5]}]', '[{"path":["x"],"stat":"nan_count","values":[5]}]', '[{"path":["x"],"stat":1,"values":[5]}]',
            '[{"path":["x"],"stat":"min","values":5}]', '[{"path":["x"],"stat":"min","values":{}}]']
BOTH = '[{"rows":1,"values":[[5]]},{"rows":1,"values":[[6]]}]'
READ_BOTH = "rows 5 6 / skipped / reads 0 x 1 x"
STAT_TEXTS = [
    *of(STATS, *[asked(stats=text, filter_text="7") for text in NO_STATS]),
    *of(EMPTY, *[told(stat(path, kind)) for path in [["x"], ["t", "a"], ["t", "u", "b"]] for kind in ["min", "max", "null_count"]]),
    *of(BAD_PATH, *[told(stat(path)) for path in
                    [[], [""], ["y"], ["X"], ["a"], ["t.a"], ["l"], ["l", "a"], ["t"], ["t", "z"], ["t", "u"], ["t", "l"], ["x", "x"], ["t", "a", "a"]]]),
    *of(BAD_PATH, *[told(stat(path, "null_count")) for path in [[], ["y"], ["l"], ["t"], ["t", "u"]]], told(stat(["x"]), stat(["x"]), stat(["y"]))),
    *of(STAT_TWICE, told(stat(["x"]), stat(["x"])), told(stat(["t", "a"]), stat(["x"]), stat(["t", "a"])), told(stat(["x"]), stat(["x"], values="[1]"))),
    *of(EMPTY, told(stat(["x"]), stat(["x"], "max"), stat(["t", "a"])), told()),
    *of(STAT_COUNT, told(stat(["x"], values="[5]")), told(stat(["x"], values="[5]"), blocks=BOTH), told(stat(["x"], values="[5,6,7]"), blocks=BOTH),
        told(stat(["x"], values="[]"), blocks=BOTH), told(stat(["x"], values='["a"]'), blocks=BOTH),
        told(stat(["x"], values='["a","b"]'), stat(["x"], "max", "[6]"), blocks=BOTH)),
    *of(READ_BOTH, told(stat(["x"], values="[5,6]"), blocks=BOTH), told(stat(["x"], values="[null,null]"), blocks=BOTH)),
    *of(STAT_TYPE, *[valued('"i64"', "null_count", text) for text in ["-1", '"0"', "true", "[]", "{}"]]),
    *of(STATS, *[valued('"i64"', name, text) for name in ["min", "null_count"] for text in ["1.5", "1e3", "-0", "18446744073709551616", "[1.5]"]]),
    *of(EMPTY, *[valued('"i64"', "null_count", text) for text in ["0", "9223372036854775808", "18446744073709551615", "null"]]),
    *of(STAT_TYPE, *[valued(kind, "min", text) for kind, text in
                     [('"i64"', "9223372036854775808"), ('"i64"', '"a"'), ('"i64"', "true"), ('"i8"', "128"), ('"i8"', "-129"), ('"u8"', "-1"), ('"bool"', "0"),
                      ('"utf8"', "5"), ('"utf8?"', "[]")]]),
    *of(EMPTY, *[valued(kind, "max", text) for kind, text in
                        [('"i64"', "-9223372036854775808"), ('"i8"', "-128"), ('"u64"', "18446744073709551615"), ('"bool"', "false"), ('"utf8"', '"a"'),
                         ('"i64"', "null"), ('"utf8?"', "null")]]),
    # before what is wrong with a block's cells
    *of(STAT_TYPE, asked(blocks='[{"rows":2,"values":[[5]]}]', stats="[%s]" % stat(["x"], values='["a"]'))),
]


# Both texts, and the order of places.

NO_DIGITS = ["0", "0g", "0x00", " 00", "00 ", "00f", "é", "\\u0000"]
SIDES = [
    *of("BadRequest(Filter)", *[asked(filter_text=text, projection="7") for text in ["7", "1.5", "null", "[]", "{}"]]),
    *of("BadRequest(Projection)", *[asked(filter_text='"0"', projection=text) for text in ["7", "1.5", "null", "[]", "{}"]]),
    *of("BadHex(Filter)", *[asked(filter_text='"%s"' % text, projection='"0"') for text in NO_DIGITS], asked(X[:-1] + "," + X[1:], filter_text='"0"')),
    *of("BadHex(Projection)", *[asked(projection='"%s"' % text) for text in NO_DIGITS], asked(X[:-1] + "," + X[1:], projection='"0"')),
    *of("BadWire(Filter) / reads", asked(filter_text='""'), asked(filter_text='"00"')),
    *of("BadWire(Projection) / reads", asked(projection='""')),
    *of(READ_FIVE, asked(filter_text=quoted(TRUE.hex().upper()), projection=quoted(PROJECTION.upper()))),
    *of(COLUMNS, asked("7", "7", "7", "7", "7")),
    *of(BLOCKS, asked(X, "7", "7", "7", "7"), asked(blocks=FIVE.replace("5", "1.5"), stats="7"), asked(blocks=FIVE.replace("5", "1.5"), filter_text='"0"')),
    *of(STATS, asked(stats="7", filter_text="7", projection="7")),
]

# Requests whose texts spell no expression: answered is what is refused before them, or else that the filter is no wire text.

NO_TEXTS = ('"00ff"', '""')
DECODED = "BadWire(Filter) / reads"


def decoded(table, stats="[]", texts=NO_TEXTS):
    """A request of this table, which is a text of columns and one of blocks."""
    return asked(*table, stats, *texts)


def same_names(number):
    return "[" + ",".join(['{"name":"x","type":"bool"}'] * number) + "]"


def of_value(kind, text):
    """A table of a column with one cell."""
    return column(kind), '[{"rows":1,"values":[[%s]]}]' % text


def stat_texts(*stats):
    return "[" + ",".join(stats) + "]"


X_TWICE = X[:-1] + "," + X[1:]
XT = '[{"name":"x","type":"i64"},{"name":"t","type":%s}]' % struct(("a", '"utf8?"'))
XT_CELLS = '[{"rows":1,"values":[[1],[{"a":null}]]}]'
NO_OBJECTS = ['{"columns":[],"blocks":[],"stats":[],"filter":""}', '{"columns":[],"blocks":[],"stats":[],"filter":"","projection":"","more":1}',
              '{"columns":[],"blocks":[],"stats":[],"filter":"","Projection":""}']
BLOCKS_OF_ONE = ["{}", "[1]", '[{"rows":1}]', '[{"rows":1,"values":{}}]', '[{"rows":1,"values":[1]}]']
ROWS_OF_ONE = ['"1"', "-1", "1.5", "1e3", "18446744073709551616", "1048577"]
STATS_OF_NONE = ["{}", "[1]", '[{"path":["x"],"stat":"min"}]', '[{"path":"x","stat":"min","values":[]}]', '[{"path":[1],"stat":"min","values":[]}]',
                 stat_texts(stat(["x"], "nan_count")), stat_texts(stat(["x"], "Min")), '[{"path":["x"],"stat":"min","values":1}]']
SHAPES = ['[{"rows":1,"values":[[1]]}]', '[{"rows":2,"values":[[1,2],[null]]}]', '[{"rows":1,"values":[[null],[null]]},{"rows":0,"values":[]}]']
STRUCT_CELLS = ['[{"rows":1,"values":[[null],[null]]}]', '[{"rows":1,"values":[[1],[{"a":1}]]}]', '[{"rows":1,"values":[[1],[{}]]}]',
                '[{"rows":1,"values":[[1],[{"a":"","b":1}]]}]']

# a type, a value of it, and what is none, with its refusal
VALUES = [
    ('"bool"', "true", "0", WRONG_VALUE), ('"u8"', "255", "256", WRONG_VALUE), ('"u16"', "65535", "65536", WRONG_VALUE),
    ('"u32"', "4294967295", "4294967296", WRONG_VALUE), ('"u64"', "18446744073709551615", "18446744073709551616", BLOCKS), ('"u64"', "0", "-0", BLOCKS),
    ('"u64"', "1", "-1", WRONG_VALUE), ('"i8"', "-128", "-129", WRONG_VALUE), ('"i16"', "32767", "32768", WRONG_VALUE),
    ('"i32"', "-2147483648", "-2147483649", WRONG_VALUE), ('"i64"', "9223372036854775807", "9223372036854775808", WRONG_VALUE),
    ('"i64"', "-9223372036854775808", "-9223372036854775809", BLOCKS), ('"i64"', "1", "1.0", BLOCKS), ('"i64"', "1000", "1e3", BLOCKS),
    ('"i64?"', "null", '"1"', WRONG_VALUE), ('"utf8"', '"\\u00e9"', "null", WRONG_VALUE),
    ('{"list":"u8?","nullable":false}', "[1,null]", "[1,256]", WRONG_VALUE), ('{"list":"u8","nullable":true}', "null", "[null]", WRONG_VALUE),
    ('{"struct":[],"nullable":false}', "{}", "[]", WRONG_VALUE)]

DECODING = [
    *of("BadJson", '{"columns":[],}', "[1e999]"),
    *of(TOP, "1", *NO_OBJECTS),
    *of(NAME_TWICE, decoded((same_names(1024), "[]"))),
    *of(COLUMNS, decoded((same_names(1025), "[]"))),
    *of(DECODED, decoded((column(lists(63, '"i64"')), "[]"))),
    *of(DEEP, *[decoded((column(lists(levels, '"i64"')), "[]")) for levels in (64, 124)]),
    *of(BLOCKS, *[decoded((X, text), "1") for text in BLOCKS_OF_ONE]),
    *of(BLOCKS, *[decoded((X, '[{"rows":%s,"values":[[1]]}]' % number), "1") for number in ROWS_OF_ONE], decoded((X, '[{"rows":-0,"values":[[]]}]'), "1"),
        decoded((X, '[{"rows":1048576,"values":[]},{"rows":1,"values":[]}]'), "1")),
    *of(DECODED, decoded(("[]", '[{"rows":1048575,"values":[]},{"rows":1,"values":[]}]'))),
    *of(STATS, *[decoded((X, "[]"), text, ("1", "1")) for text in STATS_OF_NONE]),
    *of("BadRequest(Filter)", decoded((X_TWICE, "[]"), texts=("1", "1"))),
    *of("BadRequest(Projection)", decoded((X_TWICE, "[]"), texts=('"0"', "1"))),
    *of("BadHex(Filter)", *[decoded((X_TWICE, "[]"), texts=texts) for texts in [('"0"', '"0"'), ('"0g"', '""')]]),
    *of("BadHex(Projection)", *[decoded((X_TWICE, "[]"), texts=texts) for texts in [('"0F"', '"000"'), ('""', '"\\u00e9"')]]),
    *of(NAME_TWICE, decoded((X_TWICE, "[]"), texts=('""', '""'))),
    *of(BAD_PATH, *[decoded((XT, XT_CELLS), stat_texts(stat(path, kind, "[1]"))) for path, kind in
                    [(["y"], "min"), ([], "min"), (["t"], "null_count"), (["x", "a"], "min")]]),
    *of(STAT_TWICE, decoded((XT, XT_CELLS), stat_texts(stat(["x"]), stat(["x"], values="[1]")))),
    *of(STAT_COUNT, decoded((XT, XT_CELLS), stat_texts(stat(["x"])))),
    *of(STAT_TYPE, decoded((XT, XT_CELLS), stat_texts(stat(["x"], values='["a"]'))), decoded((XT, XT_CELLS), stat_texts(stat(["x"], "null_count", "[-1]")))),
    *of(WRONG_LENGTH, *[decoded((XT, text)) for text in SHAPES]),
    *of(WRONG_VALUE, *[decoded((XT, text)) for text in STRUCT_CELLS]),
    *of(DECODED, decoded((XT, XT_CELLS))),
    *[case for kind, value, other, refused in VALUES for case in of(DECODED, decoded(of_value(kind, value))) + of(refused, decoded(of_value(kind, other)))],
    *of('rows 1 -2 / skipped / reads 0 x', asked(XT, '[{"rows":2,"values":[[1,-2],[{"a":"b"},null]]}]',
                                                 stat_texts(stat(["t", "a"], "null_count", "[1]"), stat(["x"], values="[null]")))),
    *of('rows {"a":"b"} null / skipped / reads 0 t', asked(XT, '[{"rows":2,"values":[[1,-2],[{"a":"b"},null]]}]', projection=quoted(item("t").hex()))),
]


# Zones: statistics of two blocks, over a number, a struct that may be missing, and a list.

ZONED = '[{"name":"a","type":"i32"},{"name":"home","type":{"struct":[{"name":"city","type":"utf8?"},{"name":"zip","type":"i32"}],"nullable":true}},' \
        '{"name":"tags","type":{"list":"i32","nullable":false}}]'
ZONED_BLOCKS = '[{"rows":2,"values":[[1,2],[null,null],[[],[]]]},{"rows":3,"values":[[3,4,5],[null,null,null],[[],[],[]]]}]'
TWO_NULLS, THREE_NULLS = "[null,null]", "[null,null,null]"


def zoned(*stats):
    return asked(ZONED, ZONED_BLOCKS, stat_texts(*stats), projection=quoted(item("a").hex()))


ZONES = [
    *of("rows 1 2 3 4 5 / skipped / reads 0 a 1 a", *[zoned(stat(path, kind, TWO_NULLS)) for path, kind in
                                                    [(["a"], "min"), (["home", "zip"], "max"), (["home", "zip"], "null_count")]]),
    *of(BAD_PATH, *[zoned(stat(path, kind, TWO_NULLS)) for path, kind in [(["b"], "min"), (["a", "b"], "min"), (["home"], "min"), (["tags"], "null_count")]]),
    *of(STAT_COUNT, zoned(stat(["a"], "max", THREE_NULLS)), zoned(stat(["a"], "max", '["a","b","c"]'))),
    *of(STAT_TYPE, zoned(stat(["a"], "max", '[null,"a"]')), zoned(stat(["a"], "null_count", "[null,-1]"))),
    *of(STAT_TWICE, zoned(stat(["a"], values=THREE_NULLS), stat(["a"], values=THREE_NULLS))),
]


# Tables alone: of the members of a request all but its two texts, and the statistics may be left out.

def table(columns=X, blocks=FIVE, stats=None):
    """The text of a table, with the statistics or without."""
    return object_of(members(columns, blocks, stats)[:3] if stats else members(columns, blocks)[:2])


def tells(answer, *inputs):
    """Cases of these inputs, which tell one table or are refused alike."""
    return [{"input": text, "table": answer} for text in inputs]


PLACES = members()[:3]
X_FIVE = "{x=i64} rows 1 (5)"
NO_TABLES = ["{}", "[]", "5", "null", quoted(table()), "[" + table() + "]", '{"columns":[]}', '{"blocks":[]}', '{"columns":[],"stats":[]}', '{"blocks":[],"stats":[]}',
             table().replace("columns", "Columns"), table(stats="[]").replace("stats", "Stats")]
ALONE = [
    *tells(X_FIVE, table(), table(stats="[]"), " \t\r\n" + table() + "\n", table().replace("columns", "c\\u006flumns")),
    *tells(X_FIVE, object_of(PLACES[1::-1]), object_of(PLACES[::-1]), object_of([PLACES[2], *PLACES[:2]]), object_of([PLACES[0], PLACES[2], PLACES[1]])),
    # a member given twice counts once, with its last value
    *tells(X_FIVE, object_of(['"columns":7', *PLACES[:2]]), object_of(['"stats":7', *PLACES])),
    *tells(COLUMNS, object_of([*PLACES[:2], '"columns":7'])),
    *tells("{x=i64}", table(blocks="[]"), table(blocks="[]", stats="[]")),
    *tells("{x=i64} rows 0 () rows 1 (5)", table(blocks='[{"rows":0,"values":[[]]},{"rows":1,"values":[[5]]}]')),
    *tells("{x=i64} rows 1 (5) rows 1 (6) x_min 5 null x_null_count 0 0",
           table(blocks=BOTH, stats=stat_texts(stat(["x"], values="[5,null]"), stat(["x"], "null_count", "[0,0]")))),
    *tells('{x=i64, t={a=utf8?}?} rows 2 (1 / -2) ({"a":"b"} / null) t_a_max "b"',
           table(XT, '[{"rows":2,"values":[[1,-2],[{"a":"b"},null]]}]', stat_texts(stat(["t", "a"], "max", '["b"]')))),
    *tells("BadJson", "", "{", "nul", "\ufeff" + table(), table() + "x", table() + table(), table()[:-1], table()[:-1] + ",}", nested(128)),
    *tells(TOP, *NO_TABLES),
    # a member too much: beside two, beside three, and the two texts of a request
    *tells(TOP, *[object_of([*places, '"more":1']) for places in [PLACES[:2], PLACES]], object_of(members()), object_of([*PLACES[:2], *members()[3:]])),
    *tells(COLUMNS, table("7"), table("7", "7"), table("7", "7", "7")),
    *tells(BLOCKS, table(X, "7"), table(X_TWICE, "7", "7"), table(blocks=FIVE.replace("5", "1.5"), stats="7")),
    *tells(STATS, table(stats="7"), table(X_TWICE, FIVE, "7"), table(stats="null")),
    *tells(NAME_TWICE, table(X_TWICE), table(X_TWICE, FIVE, "[]")),
    *tells(DEEP, table(column(lists(64, '"bool"')), "[]")),
    *tells(BAD_PATH, table(stats=stat_texts(stat(["y"], values="[5]")))),
    *tells(STAT_TWICE, table(stats=stat_texts(stat(["x"], values="[5]"), stat(["x"], values="[5]")))),
    *tells(STAT_COUNT, table(stats=stat_texts(stat(["x"])))),
    *tells(STAT_TYPE, table(stats=stat_texts(stat(["x"], values='["a"]'))), table(blocks="[" + FIVE[1:-1].replace("1", "2") + "]", stats=stat_texts(stat(["x"], values="[true]")))),
    *tells(WRONG_LENGTH, table(TWO_COLUMNS), table(blocks='[{"rows":2,"values":[[5]]}]'), table(blocks='[{"rows":2,"values":[[true]]}]')),
    *tells(WRONG_VALUE, table(blocks=FIVE.replace("5", "true")), table(blocks=FIVE.replace("5", "null"), stats="[]")),
]

INPUTS = [{"cases": [*TEXTS, *TYPES, *BLOCK_TEXTS, *CELLS, *STAT_TEXTS, *SIDES, *DECODING, *ZONES, *ALONE]}]
