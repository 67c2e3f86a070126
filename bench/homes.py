#!/usr/bin/env python3
"""Counts what the tools and the Python package share: functions of one name, and functions of one shape.

    bench/homes.py [TOP]

Each thing has one home: what decides nothing and is not R is in python/welungad, and tools/ has scripts of a few lines over it. The
reviewers' scripts in tools/ have readers of their own, so that some names are the same; they share no code with the package. Two
functions have one shape if at least seven tenths of their statements, six or more, are the same but for names, texts, numbers and
types. `main` and names that begin with two underscores are left out. Prints each pair of one shape, and ends with status 1 if there
is one.
"""
import ast
import glob
import os
import sys
from collections import Counter

TOP = sys.argv[1] if sys.argv[1:] else os.path.normpath(os.path.join(os.path.dirname(os.path.abspath(__file__)), ".."))
LEAST_STATEMENTS, LEAST_PART = 6, 0.7


class Blank(ast.NodeTransformer):
    """Takes the names, texts, numbers, types and descriptions out of a function."""

    def visit_Name(self, node):
        return ast.copy_location(ast.Name("_", node.ctx), node)

    def visit_Attribute(self, node):
        self.generic_visit(node)
        node.attr = "_"
        return node

    def visit_arg(self, node):
        return ast.arg("_")

    def visit_keyword(self, node):
        self.generic_visit(node)
        node.arg = node.arg and "_"
        return node

    def visit_Constant(self, node):
        return ast.copy_location(ast.Constant("_"), node)

    def visit_AnnAssign(self, node):
        self.generic_visit(node)
        return ast.Assign([node.target], node.value or ast.Constant("_"))


def shape_of(function):
    """Returns the statements of a function, at any depth, without its names and its description."""
    body = function.body[1:] if ast.get_docstring(function) is not None else function.body
    statements = [it for statement in body for it in ast.walk(statement) if isinstance(it, ast.stmt)]
    return Counter(ast.dump(Blank().visit(it)) for it in ast.parse("\n".join(map(ast.unparse, statements))).body)


def is_one_shape(one, other):
    """Whether two functions share most of their statements."""
    most = max(one.total(), other.total())
    return most >= LEAST_STATEMENTS and (one & other).total() >= LEAST_PART * most


def functions_in(pattern):
    """Returns the functions of some files: the place, the name, and the shape."""
    found = []
    for path in sorted(glob.glob(os.path.join(TOP, pattern))):
        if os.path.basename(path).startswith("test_"):
            continue
        with open(path, encoding="utf-8") as file:
            tree = ast.parse(file.read())
        for node in ast.walk(tree):
            if isinstance(node, ast.FunctionDef) and node.name != "main" and not node.name.startswith("__"):
                found.append((f"{os.path.relpath(path, TOP)}:{node.lineno} {node.name}", node.name.strip("_"), shape_of(node)))
    return found


def main():
    tools, package = functions_in("tools/*.py"), functions_in("python/welungad/*.py")
    by_name = [(one[0], other[0]) for one in tools for other in package if one[1] == other[1]]
    by_shape = [(one[0], other[0]) for one in tools for other in package if is_one_shape(one[2], other[2])]
    for one, other in by_shape:
        print(f"one shape: {one} ~ {other}")
    print(f"{len(tools)} functions of tools, {len(package)} of the package: {len(by_name)} pairs of one name, {len(by_shape)} of one shape")
    return 1 if by_shape else 0


if __name__ == "__main__":
    sys.exit(main())
