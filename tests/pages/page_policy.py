#!/usr/bin/env python3
"""Whether the policy that the server sends with the page's files is the page's own.

    tests/pages/page_policy.py

client/index.html states a Content-Security-Policy; crates/page_answers/src/guards.rt sends the same, and that nobody frames the page, which
a page can't say of itself. The status is 1 where they differ.
"""
import pathlib
import re
import sys

ROOT = pathlib.Path(__file__).resolve().parents[2]
FRAMED = "; frame-ancestors 'none'"


def found(pattern, path):
    return re.search(pattern, (ROOT / path).read_text(encoding="utf-8"))[1]


own = found(r'http-equiv="Content-Security-Policy" content="([^"]*)"', "client/index.html")
sent = found(r'const POLICY: &str =\s*"([^"]*)";', "crates/page_answers/src/guards.rt")
if sent != own + FRAMED:
    sys.exit(f"client/index.html has\n    {own}\nand what is sent is\n    {sent}")
