"""The page that shows the outputs: one file that needs no network and no script from elsewhere.

The page is made of `page.html` with the tokens of all permutations put into it as JSON; what is drawn of them, and what is chosen, its own
script does. Each token has its name, description and value, what each platform gets, and a picture by its type. A refusal is told above
the tokens as on standard error, with the permutations that are not shown for it.
"""
import html
import json
import os

from .message import as_lines
from .outputs import write_alone
from .rows import all_rows, reason

PAGE = os.path.join(os.path.dirname(os.path.realpath(__file__)), "page.html")
DATA, TITLE = "/*DATA*/null", "<!--TITLE-->"


def shown_token(row):
    """What the page shows of a token."""
    said = row.said
    return {
        "path": row.path, "type": said["$type"], "value": said["$value"], "description": said.get("$description"), "deprecated": said.get("$deprecated"),
        "lines": {it: [line.strip() for line in lines] for it, lines in row.lines.items()},
        "omits": {it: reason(it, said["$type"], said["$value"]) for it in row.omits},
    }


def sheet_of(outputs, name):
    """The style sheet of a permutation, as text."""
    return outputs.get(f"{name}/tokens.css", b"").decode()


def data_of(outputs, messages):
    """The permutations with their tokens and style sheets, and what is told of those that are refused."""
    rows = all_rows(outputs)
    permutations = [{"name": name, "css": sheet_of(outputs, name), "tokens": [shown_token(it) for it in of_one]} for name, of_one in rows.items()]
    refused = [{"names": it.permutations, "lines": as_lines(it)} for it in messages]
    return {"permutations": permutations, "refused": refused}


def page_of(outputs, messages, title):
    """The text of the page. No text of a token can end the script that it stands in."""
    with open(PAGE, encoding="utf-8") as file:
        page = file.read()
    data = json.dumps(data_of(outputs, messages), ensure_ascii=False, separators=(",", ":"))
    for mark, code in (("<", "\\u003c"), ("\u2028", "\\u2028"), ("\u2029", "\\u2029")):
        data = data.replace(mark, code)
    return page.replace(TITLE, html.escape(title)).replace(DATA, data, 1)


def write(name, outputs, messages, title):
    """Writes the page of outputs and of the messages of those that are refused, whole or not at all."""
    write_alone(name, page_of(outputs, messages, title).encode())
