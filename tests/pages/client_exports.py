#!/usr/bin/env python3
"""Checks that what the page's modules export is used.

    tests/pages/client_exports.py

An export is used where another module of client/ imports it by its name, or where its own module uses it and a test imports it. Each
that isn't used is a line, and so is an import that its module doesn't use, and a module that nothing imports; the last line is
`N passed, M failed`, and the status is 1 where one failed.
"""
import pathlib
import re
import sys

CLIENT = pathlib.Path(__file__).resolve().parents[2] / "client"
EXPORT = re.compile(r"^export (?:async )?(?:const|let|function\*?|class) (\w+)", re.MULTILINE)
IMPORT = re.compile(r"^import \{([^}]*)\} from \"([^\"]+)\";", re.MULTILINE)
# what is asked for once the page is drawn: `const { Page } = await import("./app.js")`
LATER = re.compile(r"^\s*const \{([^}]*)\} = await import\(\"([^\"]+)\"\)", re.MULTILINE)
COMMENT = re.compile(r"/\*.*?\*/|(?<![:\"'])//[^\n]*", re.DOTALL)


class Module:
    def __init__(self, path):
        self.path = path
        self.name = str(path.relative_to(CLIENT))
        self.text = path.read_text(encoding="utf-8")
        self.code = COMMENT.sub("", self.text)
        self.exports = EXPORT.findall(self.code)

    # the module from which each name comes, with the name there and the name here
    def imports(self):
        for names, source in IMPORT.findall(self.code) + LATER.findall(self.code):
            for name in filter(None, map(str.strip, names.split(","))):
                there, _, here = name.partition(" as ")
                yield (self.path.parent / source).resolve(), there, here or there

    # how often a name stands in the code, imports apart
    def uses(self, name):
        return len(re.findall(rf"(?<![\w#$])(?:(?<=\.\.\.)|(?<!\.)){re.escape(name)}\b", IMPORT.sub("", self.code)))


def is_test(module):
    return module.name.startswith("tests/")


def main():
    modules = [Module(path) for path in sorted(CLIENT.rglob("*.js"))]
    by_page, by_tests, faults, count = set(), set(), [], 0
    for module in modules:
        for source, there, here in module.imports():
            (by_tests if is_test(module) else by_page).add((source, there))
            count += 1
            if not module.uses(here):
                faults.append(f"{module.name} imports {here} and doesn't use it")
    reached = {source for source, _ in by_page}
    for module in filter(lambda module: not is_test(module), modules):
        for name in module.exports:
            count += 1
            key = (module.path, name)
            if key not in by_page and not (key in by_tests and module.uses(name) > 1):
                faults.append(f"{module.name} exports {name}, which {'only tests import' if key in by_tests else 'nothing imports'}")
        count += 1
        if module.path not in reached and module.name != "begin.js":
            faults.append(f"{module.name} is imported by no module")
    for fault in faults:
        print(fault)
    print(f"{count - len(faults)} passed, {len(faults)} failed")
    return 1 if faults else 0


if __name__ == "__main__":
    sys.exit(main())
