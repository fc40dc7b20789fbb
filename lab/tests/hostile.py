#!/usr/bin/env -S python3 -SE
"""Stands in the programs' place and answers with what no program prints: texts and pictures that want to run code."""
import os
import sys

CODE = "<img src=x onerror=window.taken=1><script>window.taken=1</script>\"'&lt;"
NAME = f"a{CODE.replace(' ', '/')}"
SUMMARY = f"""aps summary 1
end horizon
shape cpus 1 tick 1000000 window 10 ticks 100
entries 101
partition 0 {NAME} budget 100 billed 50000000 critical 0
idle 0
thread 0 {NAME} ran 50000000
"""
LATENCY = f"""aps latency 1
thread 0 {NAME}
wake 1 total 9000000 worst 9000000 at 0
open call 0 {NAME} 5000000 at 1000000
"""
SHARES = f"""aps shares 1
windows 9 unchanged 9 steady 9 tick_of_all 1000000
partition 0 {NAME}
demand 9 had 9
overspent 1 first 5 worst 6 at 7
"""
PICTURE = """<?xml version="1.0"?>
<svg xmlns="http://www.w3.org/2000/svg" xmlns:xlink="http://www.w3.org/1999/xlink" width="1400" height="300"
 viewBox="0 0 14000 3000" onload="window.taken=1" style="background:url(http://127.0.0.1:9/x)">
<title onclick="window.taken=1">apsim threads</title>
<style>* {{ fill: url(http://127.0.0.1:9/y) }}</style>
<script>window.taken=1</script>
<a xlink:href="javascript:window.taken=1"><text x="0" y="0">link</text></a>
<image href="http://127.0.0.1:9/z" width="10" height="10"/>
<use href="#c"/><animate attributeName="onload" to="x"/><set attributeName="href" to="javascript:1"/>
<foreignObject width="100" height="100"><div xmlns="http://www.w3.org/1999/xhtml"><img src="x" onerror="window.taken=1"/></div></foreignObject>
<script xmlns="http://www.w3.org/1999/xhtml">window.taken=1</script>
<text x="200" y="280" font-size="160" onmouseover="window.taken=1">Threads 0 to 100 ms, cpus 1, tick 1 ms</text>
<rect x="0" y="0" width="10" height="10" fill="url(http://127.0.0.1:9/f)" stroke="url(javascript:1)" filter="url(#x)" class="x"/>
<rect id="why" x="0" y="0" width="10" height="10" fill="#aabbcc" data-x="1"/>
<g id="thread0"><text x="1340" y="1150" font-size="110">{}</text><rect x="1400" y="1040" width="500" height="150" fill="#77aadd"/></g>
</svg>
"""
ESCAPED = NAME.replace("&", "&amp;").replace("<", "&lt;").replace(">", "&gt;")
ANSWERS = {"solo": SUMMARY, "latency": LATENCY, "shares": SHARES, "cycles": f"thread,begin_ns\n{NAME},0,1\n",
           "explain": f"aps explain 1\nat 7\nthread 0 {NAME} state ready since 0\nbecause {CODE}\n",
           **{name: PICTURE.format(ESCAPED) for name in ("threads", "timeline", "usage")}}


def main() -> int:
    words = sys.argv[1:]
    if not words or words[0] not in ANSWERS or (words[0] == "solo") != (os.path.basename(sys.argv[0]) == "apsim"):
        print("aps: words refused")
        return 1
    text = sys.stdin.read()
    if "refuse" in text:
        print(f"aps: scenario refused: {CODE.split(' ')[0]} {NAME}")
        print(f"{NAME}: {CODE}", file=sys.stderr)
        return 2
    sys.stdout.write(ANSWERS[words[0]])
    return 0


if __name__ == "__main__":
    sys.exit(main())
