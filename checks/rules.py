#!/usr/bin/env python3
"""Where each rule is decided: python3 checks/rules.py

Prints for each rule of descriptions (E), directives (D), Verilog texts (V), assembler programs (A), lines of ports (P) and of expectations (X), and each warning
(W), the function that decides it, and below it the ways to violate it, each with the functions that find it. A way is a variant of an enum with its facts, whose
`rule` or `number` returns the number of the rule, or whose comment has it, or a call as `Refusal::e(4, ..)`, but in a function `refusal`. The status is 1 where a way is found in a crate that
the lists below don't name for its rule, or by a function that the one which decides neither calls nor is called by, directly or through others, or nowhere.
"""
import os
import re
import sys

TOP = os.path.dirname(os.path.dirname(os.path.abspath(__file__)))
# The enums of the ways, and the letter of their rules.
ENUMS = {
    "TokenFault": "E",
    "WidthFault": "E",
    "StageFault": "E",
    "SectionFault": "E",
    "ScriptFault": "E",
    "ProgramFault": "A",
    "DirectiveFault": "D",
    "PortRule": "P",
    "LineRule": "X",
    "Lint": "W",
}
# Those whose comments have the rules, with their files.
COMMENTED = {"Lint": "kp_lint/src/lint.rt", "LineRule": "kp_until/src/expected.rt"}
# The function that decides a rule: it calls those that find the ways, or its callers name the ways.
DECIDES = {
    "A1": "kp_asm read_front",
    "A3": "kp_asm broken_operand",
    "A4": "kp_asm broken_operand",
    "A5": "kp_asm broken_operand",
    "A6": "kp_asm add_word",
    "D1": "kp_directive broken_in",
    "D2": "kp_directive names_broken",
    "D3": "kp_diagram_labels label_named",
    "D4": "kp_until read_expected",
    "E1": "kp_lex read_front",
    "E2": "kp_lex read_front",
    "E3": "kp_base read_all",
    "E4": "kp_parse parse",
    "E27": "kp_parse parse",
    "E30": "kp_image of_entry",
    "E31": "kp_image of_entry",
    "E36": "kp_image of_input",
    "E38": "kp_timing untimed",
    "V1": "kp_vlog read_front",
    "V2": "kp_vread_parse vparse",
    "V6": "kp_vread first_mismatch",
}
# The pass of a crate, which decides a rule whose ways several functions find.
PASSES = {
    "kp_asm": "read_program",
    "kp_core_ports": "port_in",
    "kp_debug_script": "command_in",
    "kp_directive": "stage_names",
    "kp_image": "section_findings",
    "kp_lint": "lints",
    "kp_stage": "stage_findings",
    "kp_until": "read_expected",
    "kp_vread_rules": "module_findings",
    "kp_width": "width_findings",
}
# Those of a Verilog text, whose rule is that of the enum.
VERILOG = {
    ("kp_vlog", "TokenFault"): "V1",
    ("kp_vread_rules", "NameFault"): "V3",
    ("kp_vread_rules", "WidthFault"): "V4",
    ("kp_vread_rules", "DriverFault"): "V5",
    ("kp_vread", "Mismatch"): "V6",
}
# E8, E10 and E13 are rules of each literal: of those of expressions, and of those of sections.
TWICE = {"E8", "E10", "E13"}
# The end of a text is checked where its job is judged (`tail` of kp_lex), and its size where it is read: each command has the line for both. kpview names a word
# that is no label.
SHARED = {"E3", "E4", "D3"}
PATTERN = re.compile(r"\s*(?:=>|\||if\b|=[^=])")


def closed(text, at):
    """The offset after the bracket that opens at an offset, or the offset itself."""
    deep = 0
    for i in range(at, len(text)):
        deep += (text[i] in "({[") - (text[i] in ")}]")
        if deep == 0:
            return i + 1 if text[at] in "({[" else at
    return len(text)


def functions(text):
    """The functions of a file: the name and the body of each."""
    for it in re.finditer(r"^\s*(?:pub(?:\([a-z]+\))? )?fn (\w+)", text, re.M):
        start = re.compile(r"^\s*\{$|\{\n", re.M).search(text, it.end())
        yield it.group(1), text[it.end() : closed(text, start.end() - 1 - (text[start.end() - 1] == "\n"))] if start else ""


def sources():
    for crate in sorted(os.listdir(f"{TOP}/crates")):
        folder = f"{TOP}/crates/{crate}/src"
        for file in sorted(os.listdir(folder)) if os.path.isdir(folder) else []:
            with open(f"{folder}/{file}", encoding="utf-8") as it:
                yield crate, re.sub(r"^\s*//.*|^\s*(?:ensures|requires) .*", "", it.read(), flags=re.M)


def numbers(texts):
    """The rule of each way."""
    found = {}
    for crate, text in texts:
        for (_, enum), rule in (it for it in VERILOG.items() if it[0][0] == crate):
            for body in re.findall(r"pub enum %s \{\n(.*?)^\}" % enum, text, re.M | re.S):
                found.update({(crate, enum, way): rule for way in re.findall(r"^    (\w+)", body, re.M)})
        for enum, letter in ENUMS.items():
            if re.search(rf"pub enum {enum}\b", text) and not crate.startswith("kp_view"):
                for _, body in (it for it in functions(text) if it[0] in ("rule", "number")):
                    for ways, number in re.findall(r"((?:\|?\s*(?:%s|Self)::\w+(?:\s*\{[^}]*\}|\([^)]*\))?\s*)+)=>\s*(\d+)" % enum, body):
                        found.update({(crate, enum, way): f"{letter}{number}" for way in re.findall(r"::(\w+)", ways)})
    for enum, path in COMMENTED.items():
        with open(f"{TOP}/crates/{path}", encoding="utf-8") as it:
            body = re.search(r"pub enum %s \{\n(.*?)^\}" % enum, it.read(), re.M | re.S)[1]
        rule = ""
        for number, way in re.findall(r"^    /// ([WX]\d+):|^    (\w+)", body, re.M):
            rule = number or rule
            found.update({(path.split("/")[0], enum, way): rule} if way else {})
    return found


def reached(calls, start):
    """The functions that a function calls, directly or through others, and itself."""
    found, left = set(), [start]
    while left:
        name = left.pop()
        if name not in found:
            found.add(name)
            left += calls.get(name, ())
    return found


def main():
    texts = list(sources())
    rules = numbers(texts)
    homes, unfound = {}, {(enum, way) for _, enum, way in rules}
    for crate, text in texts:
        for name, body in functions(text):
            for letter, number in re.findall(r"Refusal::([eva])\((\d+),", body) if name != "refusal" else []:
                homes.setdefault(f"{letter.upper()}{number}", {}).setdefault((crate, "-"), set()).add(name)
            for it in re.finditer(r"\b(%s)::([A-Z]\w+)" % "|".join({*ENUMS, *(enum for _, enum in VERILOG)}), body):
                at = it.end() + len(re.match(r"\s*", body[it.end() :]).group())
                end = closed(body, at) if body[at : at + 1] in ("{", "(") else it.end()
                found = [rules[key] for key in rules if key[1:] == it.groups() and (key[0] == crate or crate.startswith("kp_view"))]
                is_pattern = PATTERN.match(body, end) or ".." in body[at:end] or "matches!" in body[max(0, it.start() - 40) : it.start()]
                if found and not is_pattern:
                    homes.setdefault(found[0], {}).setdefault((crate, it.group(2)), set()).add(name)
                    unfound.discard(it.groups())
    calls = {}
    for crate, text in texts:
        for name, body in functions(text):
            calls.setdefault(crate, {}).setdefault(name, set()).update(re.findall(r"\w+", body))
    calls = {crate: {name: called & names.keys() for name, called in names.items()} for crate, names in calls.items()}
    homes.update({rule: homes.get(rule, {}) for rule in DECIDES})
    wrong = 0
    for rule in sorted(homes, key=lambda r: (r[0], int(r[1:]))):
        crates = sorted({crate for crate, _ in homes[rule]} - ({"kp_view"} if rule in SHARED else set()))
        for crate in [DECIDES[rule].split()[0]] if rule in DECIDES else crates:
            names = {name for (it, _), finders in homes[rule].items() if it == crate for name in finders}
            by = DECIDES[rule].split()[1] if rule in DECIDES else min(names) if len(names) == 1 else PASSES.get(crate, "")
            print(f"{rule:4} {crate} {by}")
            called = reached(calls[crate], by)
            lost = {it for it in [PASSES.get(crate, by)] if by not in reached(calls[crate], it)} | {it for it in names - called if by not in reached(calls[crate], it)}
            if by not in calls[crate] or lost:
                wrong += 1
                print(f"{rule}: {by} of {crate} isn't there, or has nothing to do with {', '.join(sorted(lost))}")
        for (crate, way), names in sorted(homes[rule].items()):
            print(f"       {way:16} {crate}: {', '.join(sorted(names))}")
        if len(crates) > 1 + (rule in TWICE) and rule not in SHARED:
            wrong += 1
            print(f"{rule} is found by {', '.join(crates)}")
    for enum, way in sorted(unfound):
        wrong += 1
        print(f"{enum}::{way} is found nowhere")
    print(f"{len(homes)} rules, {wrong} wrong")
    return wrong > 0


if __name__ == "__main__":
    sys.exit(main())
