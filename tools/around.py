#!/usr/bin/env python3
"""around.py HEADER C NAMES: writes a C wrapper (file C) for each function of the header that returns a struct of more than 16 bytes. The
wrapper has the function's name. It calls the function of the compiler's module, which writes the struct through a pointer in its first
argument, and which objcopy renames to `within_` and its name (file NAMES). A struct of at most 16 bytes is returned in two registers, as in
C."""
import re
import sys

header, code, names = sys.argv[1:]
text = open(header).read()
declared = re.findall(r"^(?:SUMPHERON_MUST_USE )?(struct \w+) (\w+)\(([^)]*)\);", text, re.M)


def is_small(answer):
    """whether the struct has at most four fields, each of 32 bits"""
    fields = re.findall(r"^    (\w[^;]*);", re.search(rf"^{answer} {{(.*?)^}};", text, re.M | re.S)[1], re.M)
    return len(fields) <= 4 and all(re.fullmatch(r"uint32_t \w+", field) for field in fields)


small = {answer for answer, _, _ in declared if is_small(answer)}
around = [function for function in declared if function[0] not in small]
if not declared:
    sys.exit(f"around.py: no function in {header}")
with open(code, "w") as out:
    out.write('#include "sumpheron.h"\n')
    out.writelines(f"_Static_assert(sizeof({answer}) {'<=' if answer in small else '>'} 16, \"{answer}\");\n" for answer in {a for a, _, _ in declared})
    for answer, name, words in around:
        params = " ".join(words.split())
        passed = ", ".join(re.findall(r"(\w+)(?:,|$)", params))
        out.write(f"void within_{name}({answer} *given, {params});\n")
        out.write(f"{answer} {name}({params}) {{ {answer} given; within_{name}(&given, {passed}); return given; }}\n")
with open(names, "w") as out:
    out.writelines(f"{name} within_{name}\n" for _, name, _ in around)
