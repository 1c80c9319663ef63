"""Reads the output of a check: its verdict on the functions of a crate."""
import re


class NotUnderstood(Exception):
    """The output of a check isn't a verdict of a known form."""


# The reasons why a function has no proof, in the checker's words.
REASONS = [re.compile(it) for it in (
    r"expected (?:\w+|`\S+`) in \w+/proofs/\S+(?:, or a measure in \w+/proofs/\S+)?",
    r"(`search` did not prove .+)",
    r"it calls `.+, which (?:is|are) not proved",
    r"it passes the blocks? `.+, which (?:is|are) not proved",
    # (for a body that a round cuts off)
    r"`#\[tactic\(none\)\]` leaves `.+",
)]
# An error of a proof file that uses a name which the edit removed.
NAMES = re.compile(r"has no field|is not in scope|has no `|was not admitted|that can be named from here|was rejected, was not checked")


def verdict(said, cycles=None):
    """The functions in the output of a check, those that failed by themselves, the files with other errors, and the functions that failed
    only because a name is missing, as far as their own lines show. A function fails by itself if it leaves a goal open, or if its own
    proof files are refused. `cycles` has the functions of each cycle of calls, by the folder of their proofs."""
    lines = said.rstrip().split("\n")
    last = next((it for it in reversed(lines) if it.startswith(("logic=", "holes=", "only=", "rattle: "))), "")
    if not last.startswith(("logic=proved", "logic=not-proved", "only=")):
        raise NotUnderstood(next((it for it in lines if "error[" in it), last or lines[-1])[:160])
    errors = {}
    for it in re.finditer(r"^(\w+/(?:src|specs|proofs)/\S+?):\d+:\d+: error\b(.*)$", said, re.M):
        errors.setdefault(it[1], []).append(it[2])
    # (a check with several processes prints an error while it runs, and again in the end; a note isn't an error, whatever it quotes)
    odd = re.search(r"^(?!\w+/(?:src|specs|proofs)/|so far: |note: ).*\berror(?:\[|: ).*$", said, re.M)
    if odd:
        raise NotUnderstood(odd[0][:160])
    functions, fell, nameless, read = set(), set(), set(), set()
    folders = {name: folder for folder, names in (cycles or {}).items() for name in names}
    for name, state in re.findall(r"^fn (\S+): (.*)$", said, re.M):
        own = {it: errors[it] for it in errors if re.fullmatch(proof_files(name), it) or it.rpartition("/")[0] == folders.get(name)}
        why = reasons(name, state)
        is_open = any(it.startswith("`search` did not prove ") for it in why)
        if name in functions:
            raise NotUnderstood(f"two lines for {name}")
        functions.add(name)
        if why is PROVED:
            continue
        read |= {*own}
        if is_open or own:
            fell.add(name)
        elif not why:
            raise NotUnderstood(f"fn {name}: {state}, and nothing says why")
        if not is_open and all(NAMES.search(it) for every in own.values() for it in every):
            nameless.add(name)
    if fell and last.startswith("logic=proved"):
        raise NotUnderstood("functions failed, and the crate is proved")
    return functions, fell, {*errors} - read, nameless


def opened(said):
    """The positions of the goals that a check left open: files and lines."""
    return {(it[1], int(it[2])) for it in re.finditer(r"^note: (\w+/src/\S+?):(\d+):\d+: it is not proved that ", said, re.M)}


PROVED = ()


def reasons(name, state):
    """The reason why this function has no proof, or PROVED if it has one."""
    # (the second line is that of a closure)
    if state in ("proved", "proved where its callers give what it asks"):
        return PROVED
    # (the check may say of which function of a cycle a reason is)
    head, *why = re.sub(r"in `\S+`, of this cycle of calls: ", "", state.removeprefix("no proof: ")).split("; ")
    if state.startswith("no proof: "):
        why = [head, *why]
    elif head != "not proved":
        raise NotUnderstood(f"fn {name}: {state}"[:160])
    for it in why:
        if not any(reason.fullmatch(it) for reason in REASONS):
            raise NotUnderstood(f"fn {name}: {it}"[:160])
    return why


def proof_files(name):
    """The proof files of this function. (For a function in a cycle of calls they are in a folder whose name begins with +.)"""
    crate, *above, own = name.split("::")
    return re.escape("/".join([crate, "proofs", *above, ""])) + r"\+?" + re.escape(own) + r"/\w+\.antt"


IN = "in `c::m::E::b`, of this cycle of calls: "
CYCLES = {"c/proofs/m/+k": {"c::m::D::a", "c::m::E::b"}}
A = "fn c::a: proved\n"
S = "fn c::a: no proof: expected answers in c/proofs/a/Answers.antt; `search` did not prove `returns`"
# Made-up outputs, with the functions that failed and the files with other errors; None means an unknown form.
READ = [
    (A + "logic=proved functions=1", [], []),
    (A + "only=1 proved=1", [], []),
    ("fn c::fn::a::a: proved where its callers give what it asks\nlogic=proved", [], []),
    (S + "\nlogic=not-proved", ["c::a"], []),
    (S + "\nonly=1 proved=0", ["c::a"], []),
    (S + "; it calls `c::b`, which is not proved\nlogic=not-proved", ["c::a"], []),
    ("fn c::a: no proof: expected answers in c/proofs/a/Answers.antt; `#[tactic(none)]` leaves `unreachable-requires`\nlogic=not-proved", [], []),
    ("fn c::a: no proof: it calls `c::b`, which is not proved\nfn c::b: not proved\nc/proofs/b/Answers.antt:1:2: error: `x`: y\nlogic=not-proved", ["c::b"], []),
    ("fn c::a: no proof: expected `a_spec` in c/proofs/a/Proof.antt\nc/proofs/a/Proof.antt:1:2: error: `x`: y\nlogic=not-proved", ["c::a"], []),
    ("fn c::m::a: not proved\nc/proofs/m/+a/Invariants.antt:1:2: error: x\nlogic=not-proved", ["c::m::a"], []),
    ("fn c::m::D::a: not proved\nfn c::m::E::b: not proved\nc/proofs/m/+k/Answers.antt:1:2: error: x\nlogic=not-proved", ["c::m::D::a", "c::m::E::b"], []),
    (f"fn c::m::D::a: no proof: expected answers in c/proofs/m/+k/Answers.antt; {IN}`search` did not prove `x`\nlogic=not-proved", ["c::m::D::a"], []),
    (f"fn c::m::D::a: not proved; {IN}it calls `c::d`, which is not proved\nlogic=not-proved", [], []),
    (A + "fn c::ab: not proved\nc/proofs/ab/Answers.antt:1:2: error: x\nlogic=not-proved", ["c::ab"], []),
    ("c/specs/A.antt:1:2: error: x\n" + A + "logic=not-proved", [], ["c/specs/A.antt"]),
    ("so far: c/proofs/a/Answers.antt:1:2: error: x\nfn c::a: not proved\nc/proofs/a/Answers.antt:1:2: error: x\nlogic=not-proved", ["c::a"], []),
    ("note: of a `search`: c/proofs/a/Answers.antt:1:2: error: x\n" + S + "\nlogic=not-proved", ["c::a"], []),
    ("so far: c/proofs/b/Answers.antt:1:2: error: x\nfn c::b: not proved\nlogic=not-proved", None),
    ("fn c::b: not proved\nlogic=not-proved", None),
    ("fn c::a: could not tell\nrattle: no verdict: antt ran out of steps", None),
    ("fn c::a: could not tell\nlogic=not-proved", None),
    ("fn c::a: no proof: the moon is full\nlogic=not-proved", None),
    ("fn c::a: not proved; it calls `c::b`, which is on strike\nlogic=not-proved", None),
    ("c/src/lib.rt:1:2: error[type]: no\n", None),
    ("error: the disk is full\n" + A + "logic=not-proved", None),
    (A, None), (A + A + "logic=proved", None), (A + "holes=3", None), ("", None), ("fn c::a: assumed\nlogic=proved", None),
    (S + "\nlogic=proved", None),
]


def reads_wrongly():
    """The made-up outputs that `verdict` misreads."""
    for said, *want in READ:
        try:
            _, fell, strays, _ = verdict(said, CYCLES)
            found = [sorted(fell), sorted(strays)]
        except NotUnderstood:
            found = [None]
        if found != want:
            return f"{said!r}: {found}, and not {want}"
    return None
