"""Schemas: texts of JSON, as docs/FORMATS.md says ("A table alone"), and those of the tables of examples/."""
import json
import os

EXAMPLES = os.path.join(os.path.dirname(os.path.abspath(__file__)), "..", "..", "..", "examples")


def table(columns, blocks=(), **more):
    fields = [{"name": name, "type": kind} for name, kind in columns]
    return json.dumps({"columns": fields, "blocks": list(blocks), **more}, ensure_ascii=False, separators=(",", ":"))


def example(name):
    """The text of a table of examples/, of which the columns count alone."""
    with open(os.path.join(EXAMPLES, name + ".json"), encoding="utf-8") as text:
        return text.read()


def example_filter(name):
    """The digits of the filter of a request of examples/, and its table alone."""
    request = json.loads(example(name))
    told = {member: request[member] for member in ("columns", "blocks", "stats")}
    return request["filter"], json.dumps(told, separators=(",", ":"))


def one(kind, name="x"):
    return table([(name, kind)])


X = one("i64")
ITEMS = example("items")
TABLE = example("table")
PLACE = {"struct": [{"name": "city", "type": "utf8?"}, {"name": "zip", "type": "u32"}], "nullable": False}
MAYBE_PLACE = dict(PLACE, nullable=True)
TAGS = {"list": "utf8", "nullable": False}
SALES = [("price", "i32?"), ("city", "utf8")]
CATALOG = [("id", "u64"), ("name", "utf8?"), ("price", "i64"), ("tags", TAGS), ("address", PLACE), ("active", "bool")]
