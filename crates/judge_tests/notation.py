"""The two texts as Python writes them: a sheet of its types and its program, an answer of its steps."""
import os


def flat(items):
    for x in items:
        if isinstance(x, str):
            yield x
        else:
            yield from flat(x)


def sheet(types, program, depth=0, first=1):
    """`first` is the number of the first line: 2 for a sheet with tickets."""
    out = [f"sheet={first}", f"depth={depth}", f"types={len(types)}"]
    for i, (places, initial, trans, behaviors, ports) in enumerate(types):
        out += [f"type={i}", f"places={places}", f"initial={initial}", f"transitions={len(trans)}"]
        out += [f"tran={x}" for x in trans] + [f"behaviors={len(behaviors)}"] + [f"behavior={x}" for x in behaviors]
        out += [f"ports={len(ports)}"] + [f"port={x}" for x in ports]
    return "".join(x + "\n" for x in out + [f"program={len(program)}"] + [f"do={x}" for x in program])


def answer(*steps):
    steps = list(flat(steps))
    return "".join(x + "\n" for x in ["answer=1", f"steps={len(steps)}"] + [f"step={x}" for x in steps])


def nexts(n):
    return ["next"] * n


def move(i, x, source, destination):
    """Instance i goes over transition x."""
    return [f"fire,{i},{source}", f"end,{i},{x}", f"enter,{i},{destination}"]


def example(name, folder="maintenance"):
    """A text of the README's examples."""
    folder = os.path.join(os.path.dirname(os.path.abspath(__file__)), "..", "..", "examples", folder)
    with open(os.path.join(folder, name + ".txt"), encoding="ascii") as file:
        return file.read()
