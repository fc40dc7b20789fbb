#!/usr/bin/env python3
"""Writes a worked scenario as a theorem: the definitions compute to the journal and the reports beside it.

    tools/row.py crates/worked/data/NAME.toml > crates/worked_proofs/proofs/Rows/Name.antt

Beside NAME.toml stand the texts that the definitions have to give: NAME.journal, and where they are there
NAME.summary and NAME.windows. With --upgraded the scenario in parts per thousand must give the same entries too.
Where the texts come from is up to whoever writes them down: they are not made by this tool, nor by the program.
The scenario must be a valid one; nothing is tested here.
"""
import argparse
import pathlib
import re
import sys
import tomllib

LIMIT = 1000  # entries; more than any of these scenarios has

USED = set()


def codes(text):
    USED.add("codes")
    return 'codes "' + text.replace("\n", "\\n") + '"'


def variant(kind, name, alias=None):
    """The name of a variant of an enum, brought in under another name where two enums share it."""
    USED.add((kind, name, alias or name))
    return alias or name


def free_policy(word):
    return variant("shape.Free", word.capitalize(), "By" + word.capitalize())


def bankruptcy(word):
    return variant("shape.Bankruptcy", word.capitalize())


def truth(value):
    return "true" if value else "false"


def atom(text):
    return f"({text})" if " " in text and not text.startswith("record") else text


def option(value, show=str):
    return "None" if value is None else f"Some {atom(show(value))}"


def column(items, indent):
    """The items one below the other, as a list that ends in []."""
    pad = "\n" + " " * indent
    return "".join(f"{pad}{'' if i == 0 else '∷ '}{item}" for i, item in enumerate(items)) + \
        (f"{pad}∷ []" if items else " []")


def across(items):
    return " ∷ ".join(list(items) + ["[]"])


# ---- the scenario


def partition_rows(text, parts):
    """The rows with the budgets that are left when the children have taken theirs."""
    rows = [{"name": "System", "parent": 0, "budget": parts, "critical": 0, "max": parts}]
    for table in text.get("partition", []):
        names = [row["name"] for row in rows]
        parent = names.index(table.get("parent", "System"))
        rows[parent]["budget"] -= table["budget"]
        rows.append({"name": table["name"], "parent": parent, "budget": table["budget"],
                     "critical": table.get("critical", 0), "max": table.get("max", parts)})
    return rows


def shape_term(text, parts):
    return (f"record {{ parts = {parts}; cpus = {text['cpus']}; tick = {text.get('tick', 1000000)}; "
            f"window = {text.get('window', 100)}; ticks = {text['ticks']}; call_ns = {text.get('call_ns', 1000)}; "
            f"free = {free_policy(text.get('free', 'priority'))}; limit = {truth(text.get('limit', False))}; "
            f"bankruptcy = {bankruptcy(text.get('bankruptcy', 'basic'))} }}")


def row_term(row):
    return (f"record {{ name = {codes(row['name'])}; parent = {row['parent']}; budget = {row['budget']}; "
            f"critical = {row['critical']}; max = {row['max']} }}")


def op_term(text, channels):
    words = text.split(" ")
    head = words[0]
    if head == "critical":
        return variant("program.Op", "CriticalOn" if words[1] == "on" else "CriticalOff")
    if text == "run forever":
        return variant("program.Op", "Forever")
    name = variant("program.Op", head.capitalize())
    if head == "join":
        return f"{name} ({codes(words[1])})"
    if head in ("send", "receive"):
        return f"{name} {channels.index(words[1])}"
    return text.replace(head, name, 1)


def thread_term(table, rows, channels):
    names = [row["name"] for row in rows]
    policy = variant("scenario.Policy", table.get("policy", "fifo").capitalize())
    return (f"record {{ name = {codes(table['name'])}; partition = {names.index(table.get('partition', 'System'))}; "
            f"priority = {table.get('priority', 10)}; policy = {policy}; critical = {truth(table.get('critical', False))}; "
            f"program = {across(op_term(op, channels) for op in table['program'])} }}")


def call_term(table, threads, parts):
    name = variant("command.Call", "".join(word.capitalize() for word in table["do"].split("_")))

    def given(key, show=str):
        return atom(option(table.get(key), show))

    match table["do"]:
        case "create":
            return (f"{name} ({codes(table['name'])}) ({codes(table.get('parent', 'System'))}) {table['budget']} "
                    f"{table.get('critical', 0)} {table.get('max', parts)}")
        case "modify":
            return f"{name} ({codes(table['partition'])}) {given('budget')} {given('critical')} {given('max')}"
        case "lookup" | "query_partition" | "statistics":
            return f"{name} ({codes(table['partition'])})"
        case "query_thread" | "mark_critical" | "clear_critical":
            return f"{name} {threads.index(table['thread'])}"
        case "set_parameters":
            return f"{name} {given('window')} {given('free', free_policy)} {given('limit', truth)} {given('bankruptcy', bankruptcy)}"
        case _:
            return name


def scenario_term(text):
    parts = 100 if text["version"] == 1 else 1000
    rows = partition_rows(text, parts)
    channels = [table["name"] for table in text.get("channel", [])]
    threads = text.get("thread", [])
    names = [table["name"] for table in threads]
    commands = [f"record {{ tick = {table['tick']}; call = {call_term(table, names, parts)} }}" for table in text.get("command", [])]
    return f"""record {{
  shape = {shape_term(text, parts)};
  partitions ={column([row_term(row) for row in rows], 4)};
  channels = {across(codes(name) for name in channels)};
  threads ={column([thread_term(table, rows, channels) for table in threads], 4)};
  commands ={column(commands, 4)};
}}"""


# ---- the entries

DONE = {"-": "Nothing", "run": "Run", "yield": "Yield", "send:blocked": "SendBlocked", "receive:blocked": "ReceiveBlocked",
        "reply:none": "ReplyNoClient", "join": "Join", "join:none": "JoinNone", "priority": "Priority",
        "critical:on": "CriticalOn", "critical:off": "CriticalOff", "repeat": "Repeat", "exit": "Exit"}
DONE_WITH_THREAD = {"send": "SendTo", "receive": "ReceiveGot", "receive:holding": "ReceiveHolding", "reply": "ReplyFreed"}


def done_term(text):
    if text in DONE:
        return variant("entry.Done", DONE[text], "Did" + DONE[text])
    head, number = text.rsplit(":", 1)
    return f"({variant('entry.Done', DONE_WITH_THREAD[head], 'Did' + DONE_WITH_THREAD[head])} {number})"


def entry_term(line):
    cpu, from_, to, ran, billed, critical, done, picked, starved, flagged = line.split(" ")

    def number(field):
        return "None" if field == "-" else f"(Some {field})"

    return (f"line {cpu} {from_} {to} {number(ran)} {number(billed)} {truth(critical == 'c')} {done_term(done)} "
            f"{number(picked)} {number(starved)} {number(flagged)}")


# ---- the file


def text_term(text):
    lines = text.splitlines(keepends=True)
    return "".join(f"\n  {'' if i == 0 else '++ '}{codes(line)}" for i, line in enumerate(lines))


def report_theorem(name, term, text):
    return f"""
{name} : {term} scenario {LIMIT} ≡{text_term(text)}
unfolding {term} digits
{name} = refl
"""


def common_words(body):
    """Those of std's words that the file uses."""
    signs = ["≡", "∷", "++"]
    words = [f"◌{sign}◌" for sign in signs if f" {sign}" in body or f"{sign} " in body]
    words.insert(1, "[]")
    return words + [word for word in ("refl", "Some", "None", "true", "false") if re.search(rf"\b{word}\b", body)]


def imports(body, upgraded, reports):
    by_kind = {}
    for kind, name, alias in USED - {"codes"}:
        by_kind.setdefault(kind, set()).add(name if name == alias else f"{name} as {alias}")
    out = ["use lib.Chars.{codes}",
           "use Rattle.std.proofs.Common.{" + ", ".join(common_words(body)) + "}"]
    out += ["use Rattle.std.specs.Fmt.{digits}"] if reports else []
    for kind in sorted(by_kind):
        module, name = kind.split(".")
        out.append(f"use Rattle.aps_model.specs.declared.{module}.{name}.TheVariants.{{{', '.join(sorted(by_kind[kind]))}}}")
    out += ["use Rattle.aps_model.specs.Scenario.{Scenario}", "use Rattle.aps_model.specs.Legal.{fixed_run}"]
    out += ["use Rattle.aps_model.specs.Upgrade.{upgraded}"] if upgraded else []
    out += ["use Rattle.worked_proofs.proofs.Line.{" + ", ".join(["line"] + reports) + "}"]
    return "\n".join(out) + "\n\n"


def main():
    parser = argparse.ArgumentParser(description=__doc__, formatter_class=argparse.RawDescriptionHelpFormatter)
    parser.add_argument("scenario", type=pathlib.Path)
    parser.add_argument("--upgraded", action="store_true")
    args = parser.parse_args()
    scenario = scenario_term(tomllib.loads(args.scenario.read_text()))
    entries = column([entry_term(line) for line in args.scenario.with_suffix(".journal").read_text().splitlines()], 2)
    body = f"""abbrev pub scenario : Scenario
scenario = {scenario}

entries : fixed_run scenario {LIMIT} ≡{entries}
entries = refl
"""
    if args.upgraded:
        body += f"""
upgraded_entries : fixed_run (upgraded scenario) {LIMIT} ≡{entries}
upgraded_entries = refl
"""
    reports = []
    for name in ("summary", "windows"):
        path = args.scenario.with_suffix("." + name)
        if path.exists():
            reports.append("run_" + name)
            body += report_theorem(name, "run_" + name, path.read_text())
    sys.stdout.write(imports(body, args.upgraded, reports) + body)


main()
