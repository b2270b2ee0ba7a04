#!/usr/bin/env python3
"""names.py ROOT [--check]: one word for one thing, in a whole checkout: Span, TextRead, Ruling, Progress, configuration, and nouns for participles.
Edits in place, renames files and folders, may be run twice. Then `rt fmt`, then `names.py ROOT --check` (which edits still apply, what is left over).
--local=WORD: what a parameter that lends a configuration is called (config; the whole word breaks calls over lines: 290 lines and 11 repeats more).
Code, definitions and proofs: whole identifiers, never in strings; comments and documents: names in backticks, and the phrases in PROSE."""
import glob, os, re, subprocess, sys
ROOT, CHECK = sys.argv[1], "--check" in sys.argv
LOCAL = next((a[8:] for a in sys.argv if a.startswith("--local=")), "config")
os.chdir(ROOT)

# ---------------------------------------------------------------- the renames
AEOLUS = lambda c: c.startswith("aeolus")
# everywhere: names that have one meaning
EVERYWHERE = dict(
    # the part of a text at fault
    faultPlace="faultSpan", stepPlace="stepSpan", placeFor="spanFor", placeText="spanText", PlacesFit="SpansFit", PromisedPlace="PromisedSpan",
    NoOtherPlace="NoOtherSpan", NoOtherTimedPlace="NoOtherTimedSpan",
    fault_place="fault_span", step_place="step_span", walk_place="walk_span", run_place="run_span", timed_place="timed_span", write_place="write_span",
    show_place="show_span", print_place="print_span", judge_and_place="judge_and_span",
    # a number with its port
    Answered="Ruling", fireAnswer="fireRuling", enterAnswer="enterRuling", turnAnswer="turnRuling", answersIn="rulingsIn",
    # the configuration in words
    StateWords="ConfigurationWords", stateIn="configurationIn", clear_state="clear_configuration", InState="InConfiguration",
    ReportsEndInTheState="ReportsEndInTheConfiguration", StatesAreReadBack="ConfigurationsAreReadBack", NoStateLeft="NoConfigurationLeft",
    stateText="configurationText", fill_state="fill_configuration",
)
# the same, of names with hyphens
EVERYWHERE_HYPHENED = {
    "no-other-place": "no-other-span", "no-other-timed-place": "no-other-timed-span", "the-place": "the-span", "place-promised": "span-promised",
    "place-smaller": "span-smaller", "places-smaller": "spans-smaller", "fits-place": "fits-span", "in-room-place": "in-room-span",
    "fault-places": "fault-spans", "fault-places-in": "fault-spans-in", "walk-places": "walk-spans", "fault-placed": "fault-spanned",
    "fault-placed-in": "fault-spanned-in", "walk-placed": "walk-spanned", "part-placed": "part-spanned", "places-fit": "spans-fit",
    "place-in-room": "span-in-room", "places-alike": "spans-alike", "reports-end-in-the-state": "reports-end-in-the-configuration",
    "states-are-read-back": "configurations-are-read-back", "no-state-left": "no-configuration-left",
}
SPAN_CRATES = set("judge_spec judge_verdicts judge_lib aeolus_judge_spec aeolus_lib timing_spec timing_lib sitting_shown sitting_spec sitting_lib register_spec"
    " register_lib outcome_lib compare_batch demands judge_tests timing_tests rewrite_spec rewrite_lib page_lib page_found page_spec faults_lib".split())
# in some crates: {crates: {old: new}}
IN_CRATES = [
    ("judge_lib aeolus_lib", {"place-within": "span-within", "place-spec": "span-spec"}),
    ("outcome_lib register_lib", {"placed-in": "span-in"}),
    ("sitting_spec", {"place-line": "span-line"}),
    ("sitting_lib", {"place-short": "span-short"}),
    ("judge_spec judge_lib outcome_lib aeolus_lib timing_lib register_lib sitting_lib sitting_shown", {"Places": "Spans"}),
    # what a reader told of a text whole: the record was called as the struct is now
    ("judge_lib timing_lib", {"TextRead": "TextTold"}),
    ("judge_lib", {"answered": "textRead"}),
    ("step_walk", {"answerAt": "rulingAt"}),
    ("step_ports step_moves step_walk hall hall_tests model_walk_lib foretell_lib timing_clock", {"answered": "ruling"}),
    ("hall", {"answered-is": "ruling-is", "same-answer": "same-ruling"}),
    ("hall_tests", {"same_answer": "same_ruling", "write_answered": "write_ruling", "put_state": "put_configuration"}),
    ("rules_spec step_walk", {"answers": "rulings"}),
    ("aeolus_judge_spec", {"answered": "verdictNumber"}),
    ("step_walk judge_lib timing_clock timing_lib outcome_lib aeolus_step aeolus_lib aeolus_write_report", {"passed": "progress"}),
    ("judge_lib aeolus_lib", {"Came": "Course"}),
    ("timing_lib", {"Ended": "TimedCourse"}),
    ("hall hall_tests", {"Moved": "StepResult"}),
    ("read_items", {"Held": "LimitRow", "held_row": "row_with", "held_by": "row_of", "heldBy": "rowOf", "numbersHeld": "numbersInRow"}),
]
IN_CRATES = [(set(cs.split()), m) for cs, m in IN_CRATES]
# types that have another meaning elsewhere: (old, crate that declares it, new); a file means it where it imports it from there
BY_IMPORT = [("Place", "read_spec", "Span"), ("Place", "read_chain", "TextRead"), ("Passed", "step_walk", "Progress"), ("Passed", "aeolus_step", "Progress"),
    ("Held", "read_chain", "AtMost")]
# modules of definitions and proofs: (crate, old, new), cited from any crate
MODULES = [("read_spec", "Place", "Span"), ("sitting_shown", "Place", "Span"), ("judge_lib", "Places", "Spans"), ("aeolus_lib", "Places", "Spans"),
    ("timing_lib", "Places", "Spans"), ("sitting_shown", "Places", "Spans"), ("words", "InState", "InConfiguration")]
# files that are not crates/*/{specs,proofs}/OLD.antt
FILES = [("crates/words/src/state.rt", "crates/words/src/configuration.rt"), ("crates/words/proofs/state", "crates/words/proofs/configuration")]

# ---------------------------------------------------------------- words of a file
RT = re.compile(r"""(?P<comment>//[^\n]*)|(?P<string>b?"(?:\\.|[^"\\])*"|b'(?:\\.|[^'\\])')|(?P<name>[^\W\d][\w'′]*(?:-[\w'′]+)*)""", re.S)
ANTT = re.compile(r"""(?P<comment>(?:(?<=\s)|(?<=\A))--(?=\s|\Z)[^\n]*)|(?P<string>"(?:\\.|[^"\\])*")|(?P<name>[^\W\d][\w'′]*(?:-[\w'′]+)*)""", re.S)
read = lambda p: open(p, encoding="utf-8").read()
FIRST = bool(re.search(r"struct Place\b", read("crates/read_chain/src/lib.rt"))) # not run on this tree before
changed, moved = [], []


def put(path, text):
    if read(path) != text:
        open(path, "w", encoding="utf-8").write(text)
        changed.append(path)


def move(old, new):
    if not os.path.exists(old): return
    if os.path.exists(new):
        print("names: both there:", old, new); return
    inside = subprocess.run(["git", "ls-files", "--error-unmatch", old], capture_output=True).returncode == 0
    if inside: subprocess.run(["git", "mv", old, new], check=True)
    else: os.rename(old, new)
    moved.append((old, new))


def map_of(crate):
    m = dict(EVERYWHERE)
    m.update(EVERYWHERE_HYPHENED)
    for crates, more in IN_CRATES:
        if crate in crates: m.update(more)
    if not AEOLUS(crate) and crate not in ("page_style", "page_lib"):
        m.update({"state": LOCAL, "state-words": "configuration-words", "wide-state": "wide-configuration"})
    if AEOLUS(crate): # the Aeolus paper's own words: a component's state
        for k in ("stateText", "InState", "clear_state", "fill_state"): m.pop(k, None)
    return m


def kebab(m):
    """functions of more than one word, and those of one, as the names that the kit makes of them"""
    return {k.replace("_", "-"): v.replace("_", "-") for k, v in m.items() if "_" in k}


def renamed(name, m, k):
    """the whole name; a name with digits after it; the names that the kit makes of a function's"""
    if name in m: return m[name]
    base = re.fullmatch(r"(.*?)([0-9₀-₉]+)", name)
    if base and base.group(1) in m: return m[base.group(1)] + base.group(2)
    if "-" in name:
        for old, new in k.items():
            f = re.fullmatch(r"((?:[A-Z]\w*-)*)%s([0-9]*(?:-(?:spec|requires|arg|result|holds|test|told)\b.*|))" % re.escape(old), name)
            if f: return f.group(1) + new + f.group(2)
    return name


def imports(text, crate, old, home):
    """does the name old mean, in this file, the type that the crate home declares?"""
    if re.search(r"\buse %s::(?:\w+::)*%s;" % (home, old), text): return True
    if re.search(r"\b%s::%s\b" % (home, old), text): return True
    if re.search(r"Rattle·%s(?:·specs)?\.specs\.(?:declared\.(?:\w+\.)*)?\w+\.\{[^}]*\b%s\b" % (home, old), text): return True
    if crate == home and re.search(r"\b(?:crate|super)::%s\b" % old, text): return True
    return crate == home and bool(re.search(r"^\s*(?:pub(?:\(crate\))? )?(?:struct|enum|record) %s\b" % old, text, re.M))


def types_of(path, text, crate):
    m = {}
    for old, home, new in BY_IMPORT:
        if imports(text, crate, old, home):
            if old in m and m[old] != new: print("names: two meanings of", old, "in", path)
            m[old] = new
    return m


# a place that is a position in a text, beside the number of a refusal; the pointer of a part
POSITION = [
    r"refused = ([\w ]+) \.refused; place = \1 \.place\b", r"refused\s*[=:]\s*[^;{},]*[;,]\s*place\b(?!: (?:Span|Place)\b)", r"\(refused place\b", r"\brefused place\b", r"([\w .]+?) \.refused\) \(\1 \.place\b", r"([\w.]+)\.refused, \1\.place\b",
    r"\bplace ≤ length", r"[rb] \.place ≤ length", r"\b(?:h|g|here|there) \.place\b", r"block = refl; place\b", r"pub place : r \.ptr", r"let place : \(z \* 16",
    r"\bat, place, eq-eqb", r"\bx \.place\b", r"\bread\.place\b", r"\bw \.place\b", r"\{\s*refused,\s*place\b", r"_, place\b",
]


def positions(text):
    found = set()
    for p in POSITION:
        for m in re.finditer(p, text):
            at = m.group(0).rfind("place")
            found.add(m.start() + at)
    return found


def code(text, path, crate, whole=None):
    """identifiers of code, definitions and proofs; whole is the file that a line stands in"""
    m = map_of(crate)
    whole = whole or text
    m.update(types_of(path, whole, crate))
    span = crate in SPAN_CRATES
    if span and not re.search(r"^use [^\n]*\{[^}\n]*place-is", whole, re.M): m["place-is"] = "span-is"
    k = kebab(m)
    text = re.sub(r"\bwords::state\b", "words::configuration", text)
    if crate == "words": text = re.sub(r"^(\s*(?:pub )?mod )state;|\bcrate::state\b|(?<![\w:])state::", lambda x: x.group(0).replace("state", "configuration"), text, flags=re.M)
    text = re.sub(r"(Rattle·words(?:·specs|·proofs)?\.(?:specs|proofs)\.(?:declared\.)?)state(?=\.)", r"\1configuration", text)
    text = modules(text, crate)
    keeps = positions(text) if span else ()
    out, last = [], 0
    for x in (RT if path.endswith(".rt") else ANTT).finditer(text):
        out.append(text[last:x.start()])
        last = x.end()
        s = x.group(0)
        if x.lastgroup == "comment": s = comment(s, m, k, crate)
        elif x.lastgroup == "name":
            if s == "Came" and re.search(r"(?:\.specs\.|\.proofs\.|mod )$", text[:x.start()]): pass
            elif s == "TextRead" and (not FIRST or text[:x.start()].endswith("declared.")): pass
            elif span and s == "place": s = s if x.start() in keeps else "span"
            elif span and s == "places" and re.search(r"(?:\.|record \{ |; |pub )$", text[:x.start()]) and crate in ("judge_spec", "judge_lib", "register_lib", "sitting_lib"): s = "spans"
            else: s = renamed(s, m, k)
        out.append(s)
    text = "".join(out) + text[last:]
    return text


def modules(text, crate):
    """paths of modules, in `use` lines and in `pub mod`"""
    for home, old, new in MODULES:
        text = re.sub(r"(Rattle·%s(?:·specs|·proofs)?\.(?:specs|proofs)\.)%s(?=\.)" % (home, old), r"\1" + new, text)
        if crate == home: text = re.sub(r"^pub mod %s$" % old, "pub mod " + new, text, flags=re.M)
    for old, home, new in BY_IMPORT:
        text = re.sub(r"(Rattle·%s(?:·specs)?\.specs\.declared\.)%s(?=\.)" % (home, old), r"\1" + new, text)
    return text


def quoted(s, f):
    """f on what stands outside "quotations" """
    return "".join(part if i % 2 else f(part) for i, part in enumerate(re.split(r'("[^"]*")', s)))


def comment(s, m, k, crate):
    s = re.sub(r"`([^`\s]+)`", lambda x: "`" + re.sub(r"[^\W\d][\w'′]*(?:-[\w'′]+)*", lambda y: renamed(y.group(0), {a: b for a, b in m.items() if a != "state"}, k), x.group(1)) + "`", s)
    # names that no sentence has
    s = re.sub(r"(?<![\w`])[A-Za-z]\w*(?:[_-]\w+)+|(?<![\w`])[A-Za-z][a-z]+[A-Z]\w*", lambda y: renamed(y.group(0), m, k), s)
    for home, old, new in MODULES:
        if crate == home: s = re.sub(r"\(%s\)|\b%s(?=[,)])|proofs/%s\b|specs/%s\b" % (old, old, old, old), lambda x: x.group(0).replace(old, new), s)
    if m.get("state"): s = quoted(s, lambda t: re.sub(r"^(--   )state    (?=0 )", r"\1config   ", t))
    s = s.replace("The words of the state: the configuration that a walk has reached.", "The words of the configuration that a walk has reached.")
    if m.get("state"): s = quoted(s, lambda t: re.sub(r"\bstate\b", "configuration", t))
    if crate in SPAN_CRATES or crate == "read_spec":
        s = s.replace("`place`", "`span`")
        s = quoted(s, lambda t: re.sub(r"\bplace of (the|an?) (line at fault|offending line|line(?! at a))\b", r"span of \1 \2", t))
        s = quoted(s, lambda t: re.sub(r"\b(its verdict and its|the judgement in a room: its|the judge's|verdict, buffer,|same) place\b", lambda x: x.group(0)[:-5] + "span", t, flags=re.I))
        s = quoted(s, lambda t: t.replace("The place after a walk", "The span after a walk").replace("places within their texts", "spans within their texts").replace("the place within its text", "the span within its text")
            .replace("A place's line has room", "A span's line has room").replace("the length of a place's line", "the length of a span's line").replace("The place on standard output", "The span on standard output")
            .replace("no place is in neither (place-held", "no span is in neither (span-held"))
    return s


# ---------------------------------------------------------------- the files
def sources():
    for top, _, files in os.walk("crates"):
        if "/data" in top: continue
        for f in files:
            if f.endswith((".rt", ".antt")): yield os.path.join(top, f)


def wrapped(text):
    """lines of contracts past 160 characters are broken where the fewest brackets are open"""
    out = []
    for line in text.split("\n"):
        while len(line) > 160 and re.match(r"\s+(ensures|requires)\b|\s{8}\S", line) and "//" not in line[:12]:
            depth, best, low = 0, None, None
            start = line.find("⌜") + 1 if "⌜" in line else 0
            for i, c in enumerate(line[:158]):
                if c in "([{⌜": depth += 1
                elif c in ")]}⌝": depth -= 1
                elif c == " " and i > 60 and i > start:
                    near = line[i + 1:i + 3]
                    score = (depth, 0 if near[:1] in "≡→×" else 1)
                    if best is None or score <= low: best, low = i, score
            if best is None: break
            out.append(line[:best])
            line = " " * 8 + line[best + 1:]
        out.append(line)
    return "\n".join(out)


def wrapped_comments(text):
    """lines of comments past 160 characters hand their last words on to the next line"""
    lines, i = text.split("\n"), 0
    while i < len(lines):
        x = re.match(r"(\s*// )", lines[i])
        if x and len(lines[i]) > 160:
            at = lines[i].rfind(" ", 0, 158)
            rest, lines[i] = lines[i][at + 1:], lines[i][:at]
            if i + 1 < len(lines) and re.match(r"\s*// ", lines[i + 1]): lines[i + 1] = x.group(1) + rest + " " + lines[i + 1][len(x.group(1)):]
            else: lines.insert(i + 1, x.group(1) + rest)
        i += 1
    return "\n".join(lines)


def run():
    texts = {p: read(p) for p in sources()}
    edits = {p: read(p) for p in glob.glob("crates/*/must-fail/*.edit")}
    for p, s in texts.items():
        crate = p.split("/")[1]
        t = code(s, p, crate)
        if p.endswith(".rt") and t != s: t = wrapped_comments(wrapped(t))
        put(p, t)
    for p, s in edits.items():
        crate, lines, target = p.split("/")[1], [], None
        for line in s.split("\n"):
            if x := re.match(r"file: (.*)", line):
                target = f"crates/{crate}/{x.group(1)}"
                for old, new in FILES: line = line.replace(old.split("/", 2)[2], new.split("/", 2)[2]) if target == old else line
                for home, old, new in MODULES:
                    if crate == home: line = re.sub(r"/%s\.antt$" % old, f"/{new}.antt", line)
            elif x := re.match(r"(old|new): ?(.*)", line):
                whole = texts.get(target, "")
                line = line[:x.start(2)] + code(x.group(2), target or "x.rt", crate, whole)
            elif line.startswith("#"):
                m = map_of(crate)
                line = comment(line, m, kebab(m), crate)
            lines.append(line)
        put(p, "\n".join(lines))
    for old, new in FILES: move(old, new)
    for home, old, new in MODULES:
        for part in ("specs", "proofs"): move(f"crates/{home}/{part}/{old}.antt", f"crates/{home}/{part}/{new}.antt")
    # folders of proofs that are called as a function is
    for crate in sorted(os.listdir("crates")):
        m = map_of(crate)
        if crate in ("judge_lib", "aeolus_lib"): m["place"] = "span"
        m.pop("state", None)
        m.pop("answered", None)
        for top, folders, _ in os.walk(f"crates/{crate}/proofs", topdown=False):
            for f in folders:
                if f in m and re.fullmatch(r"[a-z_]+", f): move(os.path.join(top, f), os.path.join(top, m[f]))
    documents()
    print(len(changed), "files changed,", len(moved), "moved")


def documents():
    crates = {c: map_of(c) for c in os.listdir("crates")}
    public = {"judge_lib": {"place": "span"}, "aeolus_lib": {"place": "span"}, "read_spec": {"Place": "Span"}, "read_chain": {"Place": "TextRead"}, "step_walk": {"Passed": "Progress"},
        "aeolus_step": {"Passed": "Progress"}, "words": {"state": "configuration"}}
    for c, more in public.items(): crates.setdefault(c, {}).update(more)
    for crates_, m in IN_CRATES:
        pass
    common = {**EVERYWHERE, **EVERYWHERE_HYPHENED, "state-words": "configuration-words", "Places": "Spans", "answerAt": "rulingAt", "Moved": "StepResult"}
    k = kebab(common)
    name = re.compile(r"[^\W\d][\w'′]*(?:-[\w'′]+)*")
    for p in ["README.md", "compare/README.md", *sorted(glob.glob("docs/*.md"))]:
        s = read(p)
        t = re.sub(r"((?:crates/)?)\b(\w+)/(specs|proofs|src)/([\w/]+)(?=\.antt|\.rt|`|\b)", lambda x: x.group(1) + x.group(2) + "/" + x.group(3) + "/" + moved_path(x.group(2), x.group(3), x.group(4)), s)
        if p != "docs/LANDINGS.md":
            def cite(x):
                c = x.group(1)
                if f := re.match(r"([a-z_]+)::", c):
                    m = crates.get(f.group(1), common)
                    return "`" + name.sub(lambda y: renamed(y.group(0), {**common, **{a: b for a, b in m.items() if a != "state" or f.group(1) == "words"}}, k), c) + "`"
                if re.search(r"\s", c):
                    c = c.replace("judged .. .place", "judged .. .span").replace("placeText place", "spanText span")
                return "`" + name.sub(lambda y: renamed(y.group(0), common, k), c) + "`"
            t = re.sub(r"`([^`\n]+)`", cite, t)
            t = t.replace("`judge`, `place`, `print`", "`judge`, `span`, `print`").replace("`place` and `offending`", "`span` and `offending`")
            if p != "docs/GUIDE.md":
                for old, new in DOCUMENT_PROSE: t = re.sub(old, new, t)
        if p == "docs/DECISIONS.md" and DECISION not in t:
            lines = t.split("\n")
            at = next(i for i, l in enumerate(lines) if l == "## Code")
            end = next(i for i in range(at + 4, len(lines)) if not lines[i].startswith("|"))
            lines.insert(end, DECISION)
            t = "\n".join(lines)
        put(p, t)


DOCUMENT_PROSE = [
    (r"\b(every word|words|A word|a word) of (the|a) state\b", r"\1 of \2 configuration"), (r"\bof a program and of a state say\b", "of a program and of a configuration say"),
    (r"\bthe state's words\b", "the configuration's words"), (r"tables, program, state and what had been pushed", "tables, program, configuration and what had been pushed"),
    (r"\bHow a state says which ids are present\b", "How a configuration says which ids are present"), (r"\bthe same for two states is then\b", "the same for two configurations is then"),
    (r"\bthe place of the line at fault\b", "the span of the line at fault"), (r"\bthe judge's place\b", "the judge's span"), (r"\bverdict, buffer, place\b", "verdict, buffer, span"),
    (r"(`Spans`): the same place,", r"\1: the same span,"), (r"(`PartAt`) that place:", r"\1 that span:"), (r"(`PromisedSpan`): the place that goes", r"\1: the span that goes"),
    (r"\bthe place of a report that fits\b", "the span of a report that fits"), (r"how many bytes the place has, 32", "how many bytes the span has, 32"),
    (r"the verdict, the bytes, the place and the print", "the verdict, the bytes, the span and the print"),
    (r"with no refusal a place of the sheet \(by hand", "with no refusal a span of the sheet (by hand"),
]
DECISION = ("| What a walk moves on is called, in code | state, as its words were; configuration, as the definitions and the hall's doors have it | configuration in every Concerto crate "
    "[`ConfigurationWords`, `configurationIn`] | 01 has both words and lends a \"configuration\"; in the Aeolus paper a component has a state, and what is deployed is its configuration. |")


def moved_path(crate, part, rest):
    path = f"crates/{crate}/{part}/{rest}"
    for old, new in FILES:
        stem = os.path.splitext(old)[0]
        if path == stem or path.startswith(stem + "/"): return (os.path.splitext(new)[0] + path[len(stem):]).split("/", 3)[3]
    for home, old, new in MODULES:
        if crate == home and rest == old: return new
    m = {**EVERYWHERE, **({"place": "span"} if crate in ("judge_lib", "aeolus_lib") else {})}
    return "/".join(m.get(x, x) for x in rest.split("/"))


def cites():
    """what files of the repository bring in from each other, and is not there (no proof is looked at)"""
    crates = set(os.listdir("crates"))
    code_of = {c: "\n".join(read(p) for p in glob.glob(f"crates/{c}/src/**/*.rt", recursive=True)) for c in crates}
    texts = {p: read(p) for p in sources() if p.endswith(".antt")}
    for p in sources():
        for x in re.finditer(r"use Rattle·(\w+)(?:·(?:specs|proofs))?\.(specs|proofs)\.([\w.′'-]+?)(?:\.\{([^}]*)\}| as [\w′]+)?;?\s*$", read(p), re.M):
            c, part, path, names = x.groups()
            if c not in crates: continue
            steps = path.split(".")
            if steps[0] == "declared" or (part == "proofs" and len(steps) == 1 and re.search(r"(?:struct|enum) %s\b" % steps[0], code_of[c])):
                t = next((q for q in steps if q[0].isupper()), None)
                if t and not re.search(r"(?:struct|enum) %s\b" % t, code_of[c]): print(f"cites: {p}: {x.group(0).strip()}")
                continue
            if steps[-1] in ("Statement", "Tie", "Contract", "Code", "Body") or len(steps) > 1:
                if re.search(r"(?:struct|enum) %s\b" % steps[-1], code_of[c]): continue
                fn = [q for q in steps if q[0].islower() or q[0] in "+_"]
                if fn and not re.search(r"fn %s\b" % re.escape(fn[-1].lstrip("+")), code_of[c]): print(f"cites: no function: {p}: {x.group(0).strip()}")
                continue
            if steps[0][0].islower(): continue
            f = f"crates/{c}/{part}/{'/'.join(steps)}.antt"
            if f not in texts: print(f"cites: no module: {p}: {x.group(0).strip()}"); continue
            for n in re.split(r",\s*", names or ""):
                n = n.split(" as ")[0].strip()
                if n and n not in "".join(ch for ch in texts[f]) : print(f"cites: no {n}: {p}: {x.group(0).strip()[:120]}")
                elif n and re.fullmatch(r"[\w'′-]+", n) and not re.search(r"(?m)^\s*(?:(?:pub|abbrev|unfoldable|record|data|mod|use .*?\{.*?)\s+)*%s(?![\w'′-])" % re.escape(n), texts[f]) and not re.search(r"(?m)^\s*(?:pub )?[^:=\n]*(?<![\w'′-])%s(?![\w'′-])[^:=\n]*:" % re.escape(n), texts[f]):
                    print(f"cites: {n} is not declared there: {p}: {x.group(0).strip()[:120]}")
    for p in glob.glob("crates/*/proofs/**/Proof.antt", recursive=True):
        c, fn = p.split("/")[1], p.split("/")[-2].lstrip("+")
        if not re.search(r"fn %s\b" % re.escape(fn), code_of[c]): print("cites: a proof of no function:", p)
        elif f"{fn.replace('_', '-')}-spec" not in texts[p]: print("cites: no spec of its function:", p)


def check():
    bad = 0
    for p in sorted(glob.glob("crates/*/must-fail/*.edit")):
        crate, target = p.split("/")[1], None
        for line in read(p).split("\n"):
            if line.startswith("file: "): target = f"crates/{crate}/{line[6:].strip()}"
            elif line.startswith("old: "):
                n = read(target).count(line[5:]) if os.path.exists(target) else -1
                if n < 1: bad += 1; print(p, n, line)
    left = {old for m in [EVERYWHERE, EVERYWHERE_HYPHENED] for old in m}
    for p in [*sources(), *glob.glob("crates/*/must-fail/*.edit"), "README.md", *glob.glob("docs/*.md"), *glob.glob("compare/*"), *glob.glob("bin/*"), *glob.glob(".ci/*"), *glob.glob("crates/*/*.py")]:
        if not os.path.isfile(p) or p == "docs/LANDINGS.md": continue
        try: s = read(p)
        except UnicodeDecodeError: continue
        for i, line in enumerate(s.split("\n"), 1):
            for n in re.findall(r"[^\W\d][\w'′]*(?:-[\w'′]+)*", line):
                if n in left and not AEOLUS(p.split("/")[1] if "/" in p else p): print(f"left: {p}:{i}: {n}")
    cites()
    wide = [(p, i) for p in sources() if p.endswith(".rt") for i, l in enumerate(read(p).split("\n"), 1) if len(l) > 160]
    for w in wide: print("wide:", *w)
    print(bad, "edits do not apply,", len(wide), "lines over 160 characters")


check() if CHECK else run()
