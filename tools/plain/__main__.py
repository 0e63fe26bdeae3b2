"""What the plain model says of a script, a bench or a scenario.

    python3 tools/plain script|serial FILE       the replies and the report, as agc writes them
    python3 tools/plain requests SCENARIO        who asks for what, with the centisecond
    python3 tools/plain csv|json SCENARIO        what agc_watch trace --csv and --json write
    python3 tools/plain chart [SCENARIO] < CHART what is wrong with a chart of trace --perfetto: its form, and, of a scenario,
                                                 its alarms and slices
"""
import os
import pathlib
import sys
import tomllib

sys.dont_write_bytecode = True
sys.path[0] = os.path.dirname(os.path.dirname(os.path.realpath(__file__)))

from plain import orders, tables, time

TABLES = {"csv": tables.trace_csv, "json": tables.trace_json}


def main(words):
    if not words or words[0] not in {*TABLES, "script", "serial", "requests", "chart"}:
        print(__doc__, end="")
        return 2
    command, *rest = words
    scenario = tomllib.loads(pathlib.Path(rest[0]).read_text()) if rest and (command in TABLES or command in ("requests", "chart")) else None
    if command == "chart":
        fault = tables.fault_of_chart(sys.stdin.read(), scenario)
        print(fault or "a chart")
        return int(bool(fault))
    if command == "requests":
        print(*(f"{it.time} {it.who} {it.line}" for it in time.Clock(scenario).run()), sep="\n")
    elif command in TABLES:
        print(TABLES[command](scenario), end="")
    else:
        print(orders.run_of(command, pathlib.Path(rest[0]).read_bytes()).text, end="")
    return 0


if __name__ == "__main__":
    sys.exit(main(sys.argv[1:]))
