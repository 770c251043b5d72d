"""counted.py IN.s OUT.s: assembly for x86-64 that counts its instructions in the register mm7, which no compiler uses: at the start of each
block the number of its instructions is added. `paddq` changes no flag."""
import re
import sys

lines = open(sys.argv[1]).read().splitlines()
made, block, largest = [], None, 0


def finish():
    global largest, block
    if block is not None:
        place, count = block
        if count:
            made[place] = f"\tpaddq\tinstruction_counts+{8 * count}(%rip), %mm7"
            largest = max(largest, count)
    block = None


for line in lines:
    label = re.match(r"[\w.$\"][^\t]*:", line) is not None
    instruction = re.match(r"\t[a-z]", line) is not None
    if label:
        finish()
        made.append(line)
        continue
    if not instruction:
        made.append(line)
        continue
    if block is None:
        made.append("")
        block = (len(made) - 1, 0)
    block = (block[0], block[1] + 1)
    made.append(line)
    if re.match(r"\t(j|ret|ud2)", line):
        finish()
finish()
made += ["\t.section\t.rodata.counts,\"a\",@progbits", "\t.p2align\t3", "instruction_counts:", *(f"\t.quad\t{i}" for i in range(largest + 1))]
open(sys.argv[2], "w").write("\n".join(made) + "\n")
