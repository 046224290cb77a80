#!/usr/bin/env python3
# Packs crates/reading_cases/cases.jsonl (a case a line: name, source as latin-1, number, place) into what the program
# reads, each source behind its length in two bytes, and what it must write, a line `number place` for each.
import json
import pathlib

folder = pathlib.Path(__file__).parent.parent / "crates" / "reading_cases"
cases = [json.loads(line) for line in open(folder / "cases.jsonl")]
with open(folder / "stdin", "wb") as sources, open(folder / "stdout", "w") as verdicts:
    for case in cases:
        source = case["source"].encode("latin-1")
        sources.write(len(source).to_bytes(2, "big") + source)
        verdicts.write(f"{case['number']} {case['place']}\n")
