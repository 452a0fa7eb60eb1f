#!/usr/bin/env python3
"""Prints the definitions that the contract of `dsv_cli::run` and its laws cite, in reading order.

It begins with the names in the clauses of `run` and in those of the laws beside it, and goes on to those in each
definition; then come the types of the code that these definitions are about. So the list has all that a reader has to
believe, and nothing else. Run it at the top of the repository:

    python3 docs/believe.py            prints the whole list
    python3 docs/believe.py --page     writes docs/BELIEVE.md: the headline's definitions, and a count of the rest

The glosses are from the comment above each definition. The page's order stands in PAGE below; a name there that the list
doesn't have is an error, and a definition of the headline's files that isn't there is named all the same.
"""
import os
import re
import sys
import textwrap

CONTRACT = "crates/dsv_cli/src/command.rt"
LAWS = "crates/dsv_cli/src/law.rt"
TYPE = re.compile(r"^((?:\s*///[^\n]*\n)*)(?:#\[[^\n]*\]\n)*pub (?:struct|enum|type|trait) (\w+)", re.M)
DEFINITION = re.compile(r"^(?:abbrev pub|unfoldable pub|pub record|pub data|pub) ([^\s:({]+)")
NAME = re.compile(r"[A-Za-z_][\w'-]*(?:\.[A-Za-z_][\w'-]*)?|◌[^\s◌]+◌")


def imports_of(text):
    """The definitions that a file brings in by name, and its modules by their aliases."""
    names, aliases = {}, {}
    for module, items in re.findall(r"use (Rattle\.dsv_\w+\.specs\.[\w.]+?)\.\{([^}]*)\}", text):
        for item in items.split(","):
            parts = item.strip().split(" as ")
            names[parts[-1]] = (module, parts[0])
    for module, alias in re.findall(r"use (Rattle\.dsv_\w+\.specs\.[\w.]+) as (\w+)", text):
        aliases[alias] = module
    return names, aliases


def blocks_of(text):
    """Each definition of a file: its name, the comment above it, and its text."""
    found, comment, name, body = [], [], None, []
    for line in text.split("\n"):
        start = DEFINITION.match(line)
        if start or line.startswith("--"):
            if name:
                found.append((name, " ".join(note), "\n".join(body)))
                name = None
        if line.startswith("--"):
            comment = [] if line.startswith("-- ----") else comment + [line[2:].strip()]
        elif start:
            name, note, body, comment = start.group(1), comment, [line], []
        elif name:
            body.append(line)
        elif not line.strip():
            comment = []
    if name:
        found.append((name, " ".join(note), "\n".join(body)))
    return found


def read_all():
    definitions, order = {}, {}
    for crate in sorted(os.listdir("crates")):
        folder = f"crates/{crate}/specs"
        for file in sorted(os.listdir(folder)) if os.path.isdir(folder) else []:
            if file == "Lib.antt" or not file.endswith(".antt"):
                continue
            with open(f"{folder}/{file}", encoding="utf-8") as source:
                text = source.read()
            module = f"Rattle.{crate}.specs.{file[:-5]}"
            names, aliases = imports_of(text)
            blocks = blocks_of(text)
            order[module] = [name for name, _, _ in blocks]
            for name, _, _ in blocks:
                names[name] = (module, name)
            for name, note, body in blocks:
                definitions[(module, name)] = (note, body, names, aliases)
    return definitions, order


def cited(body, names, aliases):
    for word in NAME.findall(body):
        head, _, member = word.partition(".")
        if member and head in aliases:
            yield aliases[head], member
        elif head in names:
            yield names[head]


def clauses_of(text, start):
    """The clauses of the function that begins there."""
    return text[start:text.index("\n{", start)]


def roots():
    found = []
    for path, heads in ((CONTRACT, [r"pub fn run\b"]), (LAWS, [r"pub fn \w+"])):
        with open(path, encoding="utf-8") as source:
            text = source.read()
        names, aliases = imports_of(text)
        for head in heads:
            for match in re.finditer(head, text):
                found += cited(clauses_of(text, match.start()), names, aliases)
    return found


# ---- the types of the code

def types_of(crate):
    """The public types of a crate: for each its file, the first sentence of its comment, and its body."""
    found = {}
    folder = f"crates/{crate}/src"
    for base, _, files in os.walk(folder):
        for file in sorted(files):
            if file.endswith(".rt"):
                with open(os.path.join(base, file), encoding="utf-8") as source:
                    text = source.read()
                for match in TYPE.finditer(text):
                    note = " ".join(line.strip()[3:].strip() for line in match.group(1).strip().split("\n"))
                    rest = text[match.end():]
                    end = min(k for k in (rest.find("\n}"), rest.find(";\n"), len(rest)) if k >= 0)
                    found[match.group(2)] = (os.path.join(base, file), note, rest[:end])
    return found


def declared_type(module, name):
    """The crate and the type that a declared module stands for."""
    parts = module.split(".")
    if "declared" not in parts:
        return None
    return parts[1], parts[-2] if parts[-1] == "TheVariants" else name


def all_types(keys):
    """The types that these names stand for, with the types in their fields."""
    table = {crate: types_of(crate) for crate in sorted(os.listdir("crates")) if os.path.isdir(f"crates/{crate}/src")}
    home = {}
    for crate, types in table.items():
        for name in types:
            home.setdefault(name, []).append(crate)
    queue = [found for key in keys if (found := declared_type(*key))]
    seen = []
    while queue:
        crate, name = queue.pop(0)
        if (crate, name) in seen or name not in table.get(crate, {}):
            continue
        seen.append((crate, name))
        for word in re.findall(r"\b[A-Z]\w+", table[crate][name][2]):
            if word in table[crate]:
                queue.append((crate, word))
            elif len(home.get(word, [])) == 1:
                queue.append((home[word][0], word))
    return [(table[crate][name][0], name, table[crate][name][1]) for crate, name in seen]


def first_sentence(note):
    return re.split(r"(?<=[.:;])\s", note)[0].rstrip(".:;")



# ---- the page

HEADLINE = ("JobRows", "JobTexts", "Files", "Checking", "Searching", "Gain", "Simulating", "Cascades", "States", "Loops", "Proposers", "OneAnswer", "Completeness", "Accepted", "Exact")
LONG = 30
PAGE = (
    ("The call", "What `run` says of an answer, whatever the arguments, the files and the sink.",
     "IsDone dsv_command:request_of dsv_command/Table:Request IsAnswered Outcome IsJobRow IsDoneBy HaveTexts AreUnread HasEvidence BecomeJobWords AreWordless IsTaskDone "
     "FilesSeen"),
    ("The files", "What it means that a file is of its kind, what keeps it from that, and what a controller is in words.",
     "FileKind IsFileOf CameOf limit_of IsText Content IsUnread NoneCame IsFaulty IsTextOf IsFaultOf IsPlantText IsStateText dsv_certfile:certificate_in "
     "ellipsoid_in ControllerView BecomesWords QuantisedView"),
    ("Overflow, limit cycles, simulation", "What the answers on runs say, of a subject: a controller, a cascade or a state-space "
     "controller.",
     "SubjectView Behaviour behaviour_of of_controller equations_of dsv_system:rows Breaks Cycles Happens NeverHappens IsTrace IsCycle GaveUp IsTooLarge IsFormulaOf "
     "KeepsTo NoneIsGood IsGainOf outlook_of HoldsAlways NeverOverflows IsErrorOf IsBoundOf AreNear AlwaysNear "
     "RunsAsWritten error_of IsBreakOf IsRunOver IsOfSearch IsOfGain IsOfRun"),
    ("Cascades", "What the answers on several files in series say.",
     "IsCascade Fits CascadeView cascade_of of_cascade "
     "AreJudged IsStableSection AreTabled IsOfPoles"),
    ("State-space controllers", "What the answers on a state-space controller say.",
     "StateFileView BecomesStates StateView "
     "state_space_of of_states ShowsStateFall FallsAlongStates IsStateLoss state_check IsStateFinding IsSystemFinding IsSystemPolynomial IsSystemShown IsSaid IsSaidOf"),
    ("Ellipsoids", "What the answers on ellipsoids say.",
     "IsOfOffer IsOfSoughtEllipsoid ShowsEllipsoid dsv_ellipsoid:IsGood "
     "dsv_ellipsoid:NeverBreaks StaysKept ellipsoid_refusal greatest_disturbance step_form dsv_ellipsoid:first_form sample_intervals"),
    ("Loops with their plants", "What the answers on the loop of a controller with its plant say, and what the check of its certificate.",
     "PlantView IsOfLoop dsv_loop:loop_of dsv_table:IsFinding "
     "dsv_table:verdict_of IsShown HasFallingForm HasKeptAwayForm AreBounds IsRootSize HasFallAtRate HasKeptAwayAtRate "
     "LoopHas HasFallingLoop "),
    ("Stability, minimum phase, timing", "What the answers on polynomials and on time say.",
     "tested_of ShowsFall StrictlyFallsAlong StrictlyFalls ShowsKeptAway IsKeptAwayAlong IsKeptAway "
     "ShowsNoForm closed_form_of jury_of IsJuryShown ShowsTable IsTimingOf IsOnTime"),
    ("Certificates, generated controllers", "What a check says, and what a tally says.",
     "IsCheckOfRow IsCheckedBy IsOfCheck ChecksTo IsChecked IsFoundOf dsv_certcheck:found_of IsShownOf Shows IsNearOf ShowsError stop_of_check IsOfGeneration "
     "IsGeneratedFrom"),
    ("What is written, and what stays", "The output, the status, and the files afterwards.",
     "IsWritten dsv_report:output_of answer_text stop_text IfWhole IsTyped AreKept"),
    ("The lines that tell words",
     "What a report with `--words` says of the files and of the coefficients.",
     "AreLines AreLinesOf AreLinesOfCheck TellsWords told_by IsDigestOf named_by named_by_task dsv_word_lines:format_line dsv_word_lines:range_line is_cut "
     "coefficient_lines cascade_lines dsv_word_lines:state_lines cost_line inputs_in"),
    ("The C of a controller", "What the C says that `--emit-c` writes, what it does, and of what verdicts speak.",
     "IsOfCode IsOfCodeTest IsCodeOf dsv_code:remarks_of dsv_code:code_bytes dsv_c:program_of dsv_ctext:unit_text test_text code_results members_after_init "
     "IsCodable IsWideValue members_of origin_of TellsTitle title_in VerdictsSpeakOfCode IsCodeOfWords"),
    ("Proposers", "What becomes of the lists of objects that offer forms and sets.",
     "IsAsked AreSetsAsked Wants Decides AsksSchurCohn Seeks IfNoForm is_low"),
    ("Four laws over the table", "What holds of all answers together.",
     "RefusalsComeExactly IsToldTheSame IsLost HaveOneAnswer IsSettled SameAnswer AreDecided IsRefusedByNone IsVerdict WrittenAreAccepted check_of HoldTheSame Accepts"),
)
# Laws of other crates that say what a definition of the page means.
LAWS_BESIDE = {
    "dsv_ctext:unit_text": "`subjects_are_read_back` (`dsv_c_reading`) says that its bytes are read as C's tokens, and these as that program, and "
                           "nothing else (`unit_in`).",
    "code_results": "`code_runs_as_its_subject` (`dsv_code`) says that they are the outputs of the written equations.",
    "dsv_loop:loop_of": "`loop_is_its_recursion` (`dsv_loop`) says what it is to the signals in the loop, both ways, and "
                        "`runs_meet_the_transfer_function` (`dsv_transfer`) that exact runs have the coefficients that it is made of.",
    "tested_of": "`runs_meet_the_transfer_function` (`dsv_transfer`) says that exact runs of the written equations meet its coefficients.",
}


def place_of(key):
    _, crate, _, file = key[0].split(".")
    return crate, file


def is_of_headline(key):
    crate, file = place_of(key)
    return crate in ("dsv_cli", "dsv_files") and file in HEADLINE


def gloss(note):
    first = re.split(r"(?<=\.)\s", note)[0].rstrip(".")
    return first[:1].upper() + first[1:] + "." if first else ""


def wrapped(text):
    return textwrap.fill(text, 120, subsequent_indent="  " if text.startswith("- ") else "", break_long_words=False,
                         break_on_hyphens=False)


def named(listed, name):
    """The one definition of the list with this name, which may stand after its crate, or its crate, `/` and its module, and a
    colon; where several have it, that of the headline's own files."""
    crate, _, word = name.rpartition(":")
    keys = [key for key in listed if key[1] == word and crate in ("", place_of(key)[0], "/".join(place_of(key)))]
    own = [key for key in keys if is_of_headline(key)]
    if len(own or keys) != 1:
        sys.exit(f"believe.py: {len(keys)} definitions of the list are named {name}")
    return (own or keys)[0]


def page(definitions, listed, types):
    lines = [
        "# What the headline asks one to believe",
        "",
        wrapped(f"The contract of `run` (`{CONTRACT}`) and its laws (`{LAWS}`) are proved; what they mean is what these "
                "definitions say. Read them first, in this order; beside each stands what the comment above it says. "
                "`python3 docs/believe.py` prints the whole list, which the table below counts; "
                "`python3 docs/believe.py --page` makes this page anew from the sources."),
        "",
    ]
    shown = set()
    for title, intro, names in PAGE:
        lines += [f"## {title}", "", intro, ""]
        for name in names.split():
            key = named(listed, name)
            shown.add(key)
            crate, file = place_of(key)
            beside = " ".join(filter(None, (gloss(definitions[key][0]), LAWS_BESIDE.get(name))))
            lines.append(wrapped(f"- `{key[1]}` (`{crate}/specs/{file}`): {beside}"))
        lines.append("")
    rest = [key[1] for key in listed if key not in shown and is_of_headline(key)]
    lines += [wrapped("The same files also have " + ", ".join(f"`{name}`" for name in rest) + "."), ""]
    lines += ["## The rest, by crate", "", "| Crate | Definitions | Files | Types of the code |", "|---|---|---|---|"]
    crates = {}
    for key in listed:
        crate, file = place_of(key)
        crates.setdefault(crate, ([], set(), []))
        crates[crate][0].append(key)
        crates[crate][1].add(file)
    for path, name, _ in types:
        crate = path.split("/")[1]
        crates.setdefault(crate, ([], set(), []))[2].append(name)
    for crate in sorted(crates):
        keys, files, its = crates[crate]
        lines.append(f"| `{crate}` | {len(keys) or ''} | {len(files) or ''} | {len(its) or ''} |")
    files = {key[0] for key in listed}
    lines.append(f"| all | {len(listed)} | {len(files)} | {len(types)} |")
    long = sorted(((definitions[key][1].rstrip().count("\n") + 1, key) for key in listed), reverse=True)
    long = [f"`{key[1]}` ({count})" for count, key in long if count > LONG]
    lines += ["", wrapped(f"Most definitions have a few lines; over {LONG} lines have " + ", ".join(long) + ". Proofs and "
                          "private contracts cite more, which nobody has to believe.")]
    return lines


def whole(definitions, order, reached, listed, types):
    lines = []
    for module in reached:
        _, crate, _, file = module.split(".")
        lines += [f"## `{crate}/specs/{file}.antt`", ""]
        for name in order[module]:
            if (module, name) in listed:
                first = first_sentence(definitions[(module, name)][0])
                lines.append(f"- `{name}`" + (f": {first}" if first else ""))
        lines.append("")
    lines += ["## Types of the code", ""]
    for path in sorted({path for path, _, _ in types}):
        lines.append(f"- `{path[len('crates/'):]}`: " + ", ".join(f"`{name}`" for at, name, _ in types if at == path))
    return lines + ["", f"{len(listed)} definitions in {len(reached)} files, and {len(types)} types."]


def main():
    definitions, order = read_all()
    seen, reached, others = set(), [], []
    queue = roots()
    while queue:
        key = queue.pop(0)
        if key not in definitions and key not in others:
            others.append(key)
        if key in seen or key not in definitions:
            continue
        seen.add(key)
        if key[0] not in reached:
            reached.append(key[0])
        _, body, names, aliases = definitions[key]
        queue += cited(body, names, aliases)
    listed = [(module, name) for module in reached for name in order[module] if (module, name) in seen]
    types = all_types(others)
    if sys.argv[1:] == ["--page"]:
        text = "\n".join(page(definitions, listed, types)) + "\n"
        with open("docs/BELIEVE.md", "w", encoding="utf-8") as out:
            out.write(text)
    else:
        print("\n".join(whole(definitions, order, reached, set(listed), types)))


if __name__ == "__main__":
    main()
