#!/usr/bin/env python3
"""Prints what each drop of a trace (docs/TRACE.md) put back. usage: lab trace FILE | examples/trace.py"""

import json
import sys


def merge(value, patch):
    """Applies a merge patch (RFC 7386) to a value."""
    if not isinstance(patch, dict):
        return patch
    result = dict(value) if isinstance(value, dict) else {}
    for key, part in patch.items():
        result[key] = merge(result.get(key), part)
    return {key: part for key, part in result.items() if patch.get(key, part) is not None}


head, *moments = map(json.loads, sys.stdin)
state = {}
for moment in moments:
    before, state = state, merge(state, moment.get("changed", {}))
    if moment["kind"] == "drop":
        print(f"moment {moment['at']}, line {moment['line']}: " + head["lines"][moment["line"] - 1].strip())
        for process, records in before.get("undo", {}).items():
            gone = set(records) - set(state.get("undo", {}).get(process, {}))
            for record in (records[number] for number in sorted(gone, key=int, reverse=True)):
                value = record.get("to", "the kept bytes")
                print(f"  {record['what']} {record['of']} of level {record['level']}: {value}")
print(f"{head['file']}: {len(moments) - 1} moments, status {moments[-1]['status']}")
