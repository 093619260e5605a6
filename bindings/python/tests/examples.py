"""Runs the Python of a page, block after block, as one program each: `python examples.py PAGE`. A block fails where it raises."""
import re
import sys

sys.dont_write_bytecode = True
with open(sys.argv[1], encoding="utf-8") as page:
    blocks = re.findall(r"^```python\n(.*?)^```$", page.read(), re.M | re.S)
for number, block in enumerate(blocks, 1):
    exec(compile(block, f"block {number} of {sys.argv[1]}", "exec"), {"__name__": "__main__"})
print(f"{len(blocks)} examples of the page ran")
sys.exit(not blocks)
