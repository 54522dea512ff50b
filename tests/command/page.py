#!/usr/bin/env python3
"""Tests docs/COMMAND.md: its examples are what the command prints, and it names the options that there are.

    page.py
"""
import os
import re
import subprocess
import sys

from common import HERE, ROOT, expect, finish, get, run


def examples(page):
    """Each block that begins with a call of the command."""
    blocks = re.findall(r"(?ms)^```\n\$ (wherryoar [^\n]*)\n(.*?)^```$", page)
    path = os.path.join(os.path.abspath(ROOT), "command") + os.pathsep + os.environ["PATH"]
    for line, wanted in blocks:
        done = subprocess.run(["bash", "-c", line], cwd=HERE, env={**os.environ, "PATH": path}, stdout=subprocess.PIPE,
                              stderr=subprocess.STDOUT, check=False).stdout.decode()
        expect(done == wanted, f"{line} prints\n{done}")
    expect(len(blocks) == 2, f"examples {len(blocks)}")


def options(page):
    """The options on the page are options, and none is left out."""
    told, there = (set(re.findall(r"(?<![\w-])--[a-z][a-z0-9-]*", text)) for text in (page, run("show", "--help").out))
    expect(told - {"--help"} == there - {"--help"}, f"only on the page {told - there}, only in the help {there - told}")


def main():
    page = get(os.path.join(ROOT, "docs", "COMMAND.md")).decode()
    examples(page)
    options(page)
    return finish()


if __name__ == "__main__":
    sys.exit(main())
