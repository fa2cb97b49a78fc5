"""Writes the page: one file of HTML with its data, style and script inside."""
import base64
import hashlib
import html
import json
import os

HERE = os.path.dirname(os.path.abspath(__file__))


def read(name):
    with open(f"{HERE}/{name}", encoding="utf-8") as it:
        return it.read()


def in_script(data):
    """Returns data as JSON of plain ASCII in which nothing can end a script, begin a tag or a reference, or break a line."""
    text = json.dumps(data, ensure_ascii=True, separators=(",", ":"))
    for it in "<>&":
        text = text.replace(it, f"\\u{ord(it):04x}")
    return text


def page(data, title):
    script = read("page.js")
    digest = base64.b64encode(hashlib.sha256(script.encode()).digest()).decode()
    parts = {
        "sum": f"sha256-{digest}",
        "title": html.escape(f"{title} \u00b7 SharedTree"),
        "style": read("page.css"),
        "data": in_script({"title": title} | data),
        "script": script,
    }
    # (each place is filled once, and what is filled in is not looked through)
    text, made = read("page.html"), []
    while True:
        found = [(text.index(f"@{it}@"), it) for it in parts if f"@{it}@" in text]
        if not found:
            return "".join(made) + text
        start, name = min(found)
        made += [text[:start], parts.pop(name)]
        text = text[start + len(name) + 2 :]
