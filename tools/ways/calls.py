"""Who called whom in a run, by what callgrind wrote of it with --compress-strings=no, --compress-pos=no and --dump-instr=yes: each line then has whole names and places."""
import collections


def read_calls(file):
    """What each function called, with the first place in its code where it did."""
    found = collections.defaultdict(dict)
    with open(file, encoding="utf-8", errors="replace") as lines:
        for line in lines:
            if line.startswith("fn="):
                called = found[line[3:-1]]
            elif line.startswith("cfn="):
                name = line[4:-1]
            elif line.startswith("calls="):
                place = int(next(lines).split()[0], 16)
                called[name] = min(place, called.get(name, place))
    return found


def in_each(runs):
    """What each function called in each of some runs, in the order of the places in its code."""
    found = {}
    for caller, called in runs[0].items():
        places = {it: min(run[caller][it] for run in runs) for it in called if all(it in run.get(caller, ()) for run in runs)}
        if all(caller in run for run in runs):
            found[caller] = sorted(places, key=places.get)
    return found
