#!/usr/bin/env python3
"""Prints the SARIF logs of the shards of one run as one log: what several have is in it once.

The status is 1 if a result is an error, as that of the command is.
"""

import json
import sys


def key(result):
    """What tells results apart: the kind, the place and the message."""
    return result["ruleId"], json.dumps(result["locations"], sort_keys=True), result["message"]["text"]


def place(result):
    where = result["locations"][0]["physicalLocation"]
    region = where.get("region", {})
    return where["artifactLocation"]["uri"], region.get("startLine", 0), region.get("startColumn", 0)


def calls(result):
    return [(it["file"], it["line"]) for it in result["properties"].get("calls", [])]


def together(first, second):
    """A result of two shards: the calls that use a macro, which are in both, are added up."""
    if calls(second) < calls(first):
        first, second = second, first
    known = calls(first)
    more = [it for it in second["properties"].get("calls", []) if (it["file"], it["line"]) not in known]
    if more:
        listed = sorted([*first["properties"]["calls"], *more], key=lambda it: (it["file"], it["line"]))
        first["properties"].update(calls=listed, uses=len(listed))
    return first


def merged(logs):
    run = logs[0]["runs"][0]
    found = {}
    for log in logs:
        for result in log["runs"][0]["results"]:
            found[key(result)] = together(found[key(result)], result) if key(result) in found else result
    run["results"] = sorted(found.values(), key=place)
    return logs[0]


def main(names):
    logs = []
    for name in names:
        with open(name, encoding="utf-8") as stream:
            logs.append(json.load(stream))
    log = merged(logs)
    json.dump(log, sys.stdout, indent=2)
    print()
    return int(any(it["level"] == "error" for it in log["runs"][0]["results"]))


if __name__ == "__main__":
    sys.exit(main(sys.argv[1:]))
