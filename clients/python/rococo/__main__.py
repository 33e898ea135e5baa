"""The commands `python3 -m rococo call` and `rescue`. Nothing of them is proved (see the package's text)."""
from __future__ import annotations

import argparse
import json
import re
import sys
import time
from pathlib import Path

from .client import Call, Client
from .errors import RefusedCall, RococoError, Unanswered
from .rescue import left_by
from .state import StateFile
from .workload import Workload

ANSWERED, LEFT, FAULT, INTERRUPTED = 0, 5, 3, 130
INTEGER = re.compile(r"-?(?:0|[1-9][0-9]*)")


def words() -> argparse.Namespace:
    parser = argparse.ArgumentParser(prog="rococo (client)", description="A client of a rococo cluster. It is not proved; `rococo submit` is.")
    commands = parser.add_subparsers(dest="command", required=True)
    shared = argparse.ArgumentParser(add_help=False)
    shared.add_argument("workload")
    shared.add_argument("cluster")
    shared.add_argument("--coord", type=int, required=True, help="0 to 15; no other client and no `submit` uses it in this life of the servers")
    shared.add_argument("--timeout", type=float, default=5.0, help="seconds that a call may take (default: 5)")
    shared.add_argument("--program", help="the program `rococo` (default: that of the variable ROCOCO, on the path, or of this checkout)")
    shared.add_argument("--sync", action="store_true", help="have the disk hold the state before anything is sent")
    call = commands.add_parser("call", parents=[shared], help="reads calls from standard input, a line each, and writes an answer a line")
    call.add_argument("--state", required=True, help="the file that keeps the number's next sequence and its open calls")
    call.add_argument("--json", action="store_true", help="write each answer as a JSON object")
    rescue = commands.add_parser("rescue", parents=[shared], help="brings a run of `submit` that ended early to its end")
    rescue.add_argument("output", help="what that run wrote on standard output")
    rescue.add_argument("--state", help="where to keep the state (default: OUTPUT.state); a client may go on with it")
    return parser.parse_args()


def line_of(call: Call) -> str:
    return " ".join(["answer", str(call.id), *map(str, call.reply or [])])


def object_of(call: Call) -> str:
    return json.dumps({"id": str(call.id), "name": call.name, "arguments": call.arguments, "reply": call.reply})


def tell_recovered(client: Client, timeout: float, as_json: bool) -> bool:
    """Awaits what an earlier run left, and tells it on standard error, since no line of standard input asks for it."""
    is_whole = True
    for call in client.recovered:
        try:
            client.wait(call, timeout)
            print(f"recovered {object_of(call) if as_json else f'{call}: {line_of(call)}'}", file=sys.stderr)
        except Unanswered as fault:
            print(f"unanswered {fault}", file=sys.stderr)
            is_whole = False
    return is_whole


def integer(word: str) -> int:
    if not INTEGER.fullmatch(word) or len(word) > 20:
        raise RefusedCall(f"an argument is an integer of 64 bits, in digits, and not {word}")
    return int(word)


def answer_line(client: Client, line: str, timeout: float, as_json: bool) -> tuple[bool, str]:
    """Whether the call of the line was answered, and what to write."""
    name, *arguments = line.split()
    until = time.monotonic() + timeout
    try:
        call = client.submit(name, *map(integer, arguments), timeout=timeout)
        client.wait(call, until - time.monotonic())
        return True, object_of(call) if as_json else line_of(call)
    except Unanswered as fault:
        return False, json.dumps({"unanswered": str(fault), "shards": fault.shards}) if as_json else f"unanswered {fault}"
    except RefusedCall as fault:
        return False, json.dumps({"refused": str(fault)}) if as_json else f"refused {fault}"


def call_lines(given: argparse.Namespace) -> int:
    with Client(given.workload, given.cluster, given.coord, given.state, program=given.program, sync=given.sync) as client:
        is_whole = tell_recovered(client, given.timeout, given.json)
        for line in sys.stdin:
            if line.strip() and not line.startswith("#"):
                is_answered, text = answer_line(client, line, given.timeout, given.json)
                is_whole = is_whole and is_answered
                print(text, flush=True)
    return ANSWERED if is_whole else LEFT


def rescue(given: argparse.Namespace) -> int:
    workload = Workload(given.workload, given.program)
    path = given.state or f"{given.output}.state"
    if not Path(path).exists():
        kept = StateFile(path, workload.tag, given.coord, given.sync)
        kept.state = left_by(given.output, workload.tag, given.coord)
        kept.save()
        kept.close()
    with Client(workload, given.cluster, given.coord, path, sync=given.sync) as client:
        for call in client.recovered:
            client.wait(call, given.timeout)
            print(line_of(call), flush=True)
        client.drain(given.timeout)
        print(f"end {len(client.recovered)} rescued")
    return ANSWERED


def main() -> int:
    given = words()
    try:
        return call_lines(given) if given.command == "call" else rescue(given)
    except Unanswered as fault:
        print(f"unanswered {fault}", file=sys.stderr)
        return LEFT
    except (RococoError, OSError) as fault:
        print(fault, file=sys.stderr)
        return FAULT
    except KeyboardInterrupt:
        print("interrupted: what is open stays in the state file", file=sys.stderr)
        return INTERRUPTED


if __name__ == "__main__":
    sys.exit(main())
