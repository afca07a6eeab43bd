"""How the scripts here that are Python take their words, as words.sh does for the others: `--seed S` and `--count N`, and
options without a value. `--help` prints what the script says of itself and does nothing else. Wrong words, and a model that is
not there, end it with status 2. The folder of the model, which MODEL names, is then found by imports."""
import argparse
import os
import sys


def taken(says, count, *flags):
    asked = argparse.ArgumentParser(description=says, formatter_class=argparse.RawDescriptionHelpFormatter)
    asked.add_argument("--seed", type=int, default=1, metavar="S", help="what is drawn is drawn by it (1)")
    asked.add_argument("--count", type=int, default=count, metavar="N", help=f"how many ({count})")
    for flag, what in flags:
        asked.add_argument(f"--{flag}", action="store_true", help=what)
    words = asked.parse_args()
    if words.seed < 0 or words.count < 1:
        asked.error("--seed wants a number, --count one from 1 on")
    model = os.environ.get("MODEL", "")
    if not os.path.isdir(os.path.join(model, "cscout_ref")):
        asked.exit(2, f"{asked.prog}: needs the model: MODEL is to name the folder that has cscout_ref\n")
    sys.path.insert(0, model)
    return words
