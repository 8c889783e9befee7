"""A JUnit file of a run that had LOGS=FOLDER: python3 junit.py FOLDER > junit.xml"""
import re
import sys
import xml.etree.ElementTree as tree

suite = tree.Element("testsuite", name="xdrun")
tests = {}
with open(f"{sys.argv[1]}/times.tsv", encoding="utf-8") as times:
    # Of a test that ran several times the last line counts.
    for line in times:
        seconds, status, output, name = line.rstrip("\n").split("\t")
        tests[name] = seconds, int(status), output
for name, (seconds, status, output) in tests.items():
    before, _, after = name.rpartition("::")
    test = tree.SubElement(suite, "testcase", classname=before, name=after, time=seconds)
    if status == 77:
        tree.SubElement(test, "skipped")
    elif status != 0:
        with open(output, encoding="utf-8", errors="replace") as file:
            # XML has no control characters.
            text = re.sub(r"[^\t\n\x20-\uD7FF\uE000-\uFFFD\U00010000-\U0010FFFF]", "?", file.read())
        tree.SubElement(test, "failure", message=f"status {status}").text = text
sys.stdout.write(tree.tostring(suite, encoding="unicode"))
