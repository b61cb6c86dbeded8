"""The wrong and the right bodies of a crate, as `.ci/wrong-bodies` tells of them: their files, the functions for which they stand, and the copy of the crate to
which they are added. `kit.py` says what is used of the toolchain's inside.
"""

import dataclasses
import functools
import os
import re

import kit

WRONG_FOLDERS = ("wrong", "must-fail")
RIGHT_FOLDER = "right"
# no folders that are there: of the right forms, and of bodies whose answers have a hole
FORM_FOLDER, HOLE_FOLDER = "form", "hole"

REFUSED, NOT_REFUSED, BAD = "refused", "NOT REFUSED", "BAD"


class BadBody(Exception):
    """Why a body cannot be tried."""


@dataclasses.dataclass(frozen=True)
class Body:
    """A wrong or a right body of a crate."""

    path: str
    is_right: bool
    file: str
    old: str
    new: str
    clause: str
    # the name and the text of a proof by hand
    proof: str = ""
    proof_text: str = ""

    @property
    def wanted(self):
        """The verdict that it has to come to."""
        return NOT_REFUSED if self.is_right else REFUSED

    @property
    def kind(self):
        """What its function's name begins with."""
        return self.path.split("/")[-2] if self.is_right else "wrong"

    @property
    def settled(self):
        """The verdicts that are kept: a right form that is refused fails nothing."""
        return (REFUSED, NOT_REFUSED) if self.kind == FORM_FOLDER else (self.wanted,)

    @property
    def label(self):
        """What the output calls it."""
        return label_of(self.path)

    @property
    def function(self):
        """The name that its function, or its type, has in the copy of the crate."""
        name = re.sub(r"\W", "_", os.path.basename(self.path).removesuffix(".edit"))
        return f"{self.kind}_{name}"

    @property
    def is_answered(self):
        """Whether its proof by hand is of answers, and the search makes the rest."""
        return self.proof.endswith(".answers")

    @property
    def with_hole(self):
        """The same with a hole in the place of the fact that its answers leave to the search."""
        path = f"{os.path.dirname(os.path.dirname(self.path))}/{HOLE_FOLDER}/{os.path.basename(self.path)}"
        return dataclasses.replace(self, path=path, is_right=True, proof_text=self.proof_text.replace("(search)", "?"))

    @property
    def text(self):
        """What is added to the file. A new text that ends in the old one, as where an `impl` stands in front of another, is added without it."""
        return self.new if self.kind == FORM_FOLDER else re.sub(r"\b(wrong|Wrong|right)\b", self.function, self.new.removesuffix(self.old))

    @property
    def code(self):
        """What stands behind its contract."""
        return next((plain(without_comments(self.new)[it.end :]) for it in contracts_in(self.new) if it.name in ("wrong", "right")), "")


def label_of(path):
    """What the output calls the body of this file: CRATE/NAME."""
    crate, folder, file = path.split("/")[-3:]
    return f"{crate}/{'' if folder in WRONG_FOLDERS else f'{folder}/'}{file.removesuffix('.edit')}"


def is_right_at(path):
    """Whether the file is of a right body."""
    return path.split("/")[-2] == RIGHT_FOLDER


def paths_of(crate, folders):
    """The files of a crate's wrong or right bodies."""
    found = []
    for folder in folders:
        at = f"{crate.folder}/{folder}"
        if os.path.isdir(at):
            found += [f"{at}/{name}" for name in sorted(os.listdir(at)) if name.endswith(".edit")]
    return found


def body_at(path):
    """Reads a body's file."""
    with open(path, encoding="utf-8") as it:
        lines = [line.partition(": ")[::2] for line in it.read().splitlines() if line]
    is_right = is_right_at(path)
    keys = sorted(key for key, _ in lines if key != "proof" and (is_right or key != "clause"))
    given = dict(lines)
    if keys != ["file", "new", "old"] or len(given) != len(lines):
        raise BadBody("its lines are not one each of file, old, new and clause")
    clause = given.get("clause", "").strip()
    if not clause and not is_right:
        own = [name for contract in contracts_in(given["new"]) if contract.name == "wrong" for name, _ in contract.ensures]
        if len(own) != 1:
            raise BadBody("it has no line clause, and not one clause")
        clause = own[0]
    proof, proof_text = given.get("proof", "").strip(), ""
    if proof:
        with open(f"{os.path.dirname(os.path.dirname(path))}/wrong/{os.path.basename(proof)}", encoding="utf-8") as it:
            proof_text = it.read()
    return Body(path, is_right, given["file"].strip(), given["old"], given["new"], clause, proof, proof_text)


# ---- the function that a wrong body stands for


@dataclasses.dataclass(frozen=True)
class Contract:
    """A function's name, what it takes and returns, and its clauses, with spaces, comments and last commas left out."""

    name: str
    signature: str
    # its ghosts, too
    requires: frozenset
    # pairs of a name and a text
    ensures: tuple
    # where the body begins in the text that it was read from, without its comments, and the body, if there is one
    end: int
    body: str


def without_comments(text):
    """The text without its comments."""
    return re.sub(r"//[^\n]*", "", text)


def plain(text):
    """The text on one line, with no space inside a bracket and no comma before one closes. A member of an `impl` of a trait is named as the trait names it."""
    text = re.sub(r"⟦<[^⟧]*⟧\.", "", re.sub(r"\s+", " ", text))
    return re.sub(r",? ?([)\]}>])", r"\1", re.sub(r"([(\[{]) ", r"\1", text)).strip()


def close_of(text, at):
    """The place of the brace that closes one which opens right before this place."""
    depth = 1
    while depth:
        depth += {"{": 1, "}": -1}.get(text[at], 0)
        at += 1
    return at - 1


def braced(text, at):
    """What stands in braces at this place, with them, or nothing."""
    begin = re.compile(r"\s*\{").match(text, at)
    try:
        return text[begin.end() - 1 : close_of(text, begin.end()) + 1] if begin else ""
    except IndexError:
        return ""


def contracts_in(text):
    """The contracts of the functions in a text of Rattle."""
    text = without_comments(text)
    for head in re.finditer(r"\bfn (\w+)", text):
        end = re.compile(r"\s+(?:requires|ensures|ghost)\b|\s*\{|;\s*\n").search(text, head.end())
        at, requires, ensures = end.start(), set(), []
        while clause := re.compile(r"\s*(requires|ensures|ghost)(\*?)\s*(\w*:?)\s*\{").match(text, at):
            close = close_of(text, clause.end())
            fact, at = clause[2] + plain(text[clause.end() : close]), close + 1
            if clause[1] == "ensures":
                ensures.append((clause[3] or "ensures", fact))
            else:
                requires.add(fact if clause[1] == "requires" else f"ghost {clause[3]} {fact}")
        yield Contract(head[1], plain(text[head.end() : end.start()]), frozenset(requires), tuple(ensures), at, braced(text, at))


@functools.lru_cache(maxsize=None)
def contracts_of(folder):
    """The contracts of a crate's functions."""
    files = [it for it in kit.files_of(folder) if it.endswith(".rt")]
    return [contract for file in files for contract in contracts_in(kit.text_of(file))]


def contract_of(crate, body):
    """The contract of a wrong body, and those of the functions of the crate, or else of a trait below it, for which it can stand. Nothing, of an `impl` of a
    trait, whose contract is the trait's own."""
    own = next((it for it in contracts_in(body.new) if it.name == "wrong"), None)
    if own is None:
        if re.search(r"\bstruct Wrong\b", body.new):
            return None, []
        raise BadBody("it adds no function `wrong`")
    broken = [fact for name, fact in own.ensures if name == body.clause or body.proof and len(own.ensures) == 1]
    if len(broken) != 1:
        raise BadBody(f"its contract has no one clause {body.clause}")
    for folder in [crate.folder, *[it.folder for it in crate.below()]]:
        likes = [it for it in contracts_of(folder) if it.signature == own.signature and it.requires <= own.requires]
        if reals := [it for it in likes if broken[0] in [fact for _, fact in it.ensures]]:
            return own, reals
    raise BadBody(f"no function takes and returns the same, requires no more and has the clause {body.clause}")


def calls(code, reals):
    """Whether the code calls one of these functions."""
    return any(re.search(rf"\b{it.name}\s*(::<[^>]*>)?\s*\(", code) for it in reals)


def has_right_one(crate, body, own, reals):
    """Whether a body of right/ takes and returns the same as this wrong one, requires no more, has the clause that it breaks, and calls none of these functions."""
    broken = [fact for name, fact in own.ensures if name == body.clause]
    for path in paths_of(crate, (RIGHT_FOLDER,)):
        try:
            right = body_at(path)
        except (BadBody, OSError, UnicodeDecodeError, IndexError):
            continue
        like = next((it for it in contracts_in(right.new) if it.name == "right"), None)
        is_like = like and like.signature == own.signature and like.requires <= own.requires and set(broken) <= {fact for _, fact in like.ensures}
        if is_like and not calls(right.code, reals):
            return True
    return False


def form_of(crate, body, own, reals):
    """The right form of a wrong body: the code of the function for which it stands, in the place of its own."""
    if own is None:
        raise BadBody("it is an impl")
    # (a trait's function has its code in an impl of the crate)
    names = [it.name for it in reals]
    of_file = [*contracts_in(kit.text_of(f"{crate.folder}/{body.file}")), *contracts_of(crate.folder)]
    code = next((it.body for it in of_file if it.body and it.name in names and it.signature == own.signature), None)
    if code is None:
        raise BadBody("the real function's code is not in the crate")
    text = without_comments(body.new.removesuffix(body.old))
    begin = text.index("{", own.end)
    path = f"{crate.folder}/{FORM_FOLDER}/{os.path.basename(body.path)}"
    form = dataclasses.replace(body, path=path, is_right=True, clause="")
    return dataclasses.replace(form, new=re.sub(r"\b[Ww]rong\b", form.function, text[:begin]) + code + text[close_of(text, begin + 1) + 1 :])


# ---- the copy of the crate


def homes_of(crate):
    """The modules of the crate's files, and those of its types: a method is named by the module of its type, wherever its `impl` stands."""
    modules, homes = {}, {}
    for file in sorted(it for it in kit.files_of(crate.folder) if it.endswith(".rt")):
        path = os.path.relpath(file, f"{crate.folder}/src").removesuffix(".rt").split("/")
        modules[file] = [] if path in (["lib"], ["main"]) else path
        for name in re.findall(r"(?m)^(?:pub(?:\([^)]*\))? )?(?:struct|enum) (\w+)", kit.text_of(file)):
            homes[name] = homes[file, name] = modules[file]
    return modules, homes


def owner_at(line, owner):
    """The type in whose `impl` the next line stands, behind this one: none outside such a block, and no name in one of a trait."""
    if block := re.match(r"(?:pub(?:\([^)]*\))? )?(impl|trait)\b(.*)", line):
        of = re.match(r"\s*(?:<(?:[^<>]|<(?:[^<>]|<[^<>]*>)*>)*>)?\s*([A-Za-z_]\w*)", block[2])
        is_inherent = block[1] == "impl" and " for " not in block[2].replace("for<", "")
        return of[1] if is_inherent and of else ""
    return None if line.startswith("}") else owner


def home_of(crate, body):
    """The path of what a body's function stands in: its file's module, or its type."""
    modules, homes = homes_of(crate)
    file = f"{crate.folder}/{body.file}"
    owner = functools.reduce(lambda so_far, line: owner_at(line, so_far), kit.text_of(file).partition(body.old)[0].split("\n"), None)
    return [*homes.get((file, owner), homes[owner]), owner] if owner in homes else modules[file]


def functions_of(crate):
    """The paths of the crate's functions, but for those of traits and of cycles of calls. It goes by the layout of `rt fmt`: an item begins its line, and a
    method stands four spaces in. What this passes over keeps its proof."""
    modules, homes = homes_of(crate)
    found = []
    for file, path in modules.items():
        owner, attribute = None, ""
        for line in kit.text_of(file).split("\n"):
            owner = owner_at(line, owner)
            item = re.match(r"(    )?(?:pub(?:\([^)]*\))? )?(?:const )?(?:unsafe )?fn (\w+)", line)
            if item and not re.search(r"cycle\(|#\[test\]|extern", attribute):
                if not item[1] and owner is None:
                    found.append([*path, item[2]])
                elif item[1] and owner in homes:
                    found.append([*homes.get((file, owner), homes[owner]), owner, item[2]])
            attribute = line if line.lstrip().startswith("#[") else ""
    return found


def put_holes(crate, room):
    """Makes the proof of each function in the copy one hole."""
    for path in functions_of(crate):
        at = f"{room}/proofs/{'/'.join(path)}"
        for name in ("Invariants.antt", "Answers.antt"):
            if os.path.isfile(f"{at}/{name}"):
                os.remove(f"{at}/{name}")
        os.makedirs(at, exist_ok=True)
        with open(f"{at}/Proof.antt", "w", encoding="utf-8") as it:
            it.write(f"use Rattle.{crate.name}.proofs.{'.'.join(path)}.Statement.{{statement}}\n\n")
            it.write(f"pub {path[-1]}_spec : {{M : Type 1}} → statement M\n{path[-1]}_spec = ?\n")


def put_bodies(room, bodies):
    """Adds the bodies to the copy, each in front of the line that it names."""
    fronts = {}
    for body in bodies:
        fronts.setdefault((body.file, body.old), []).append(body.text)
    for (file, old), texts in fronts.items():
        with open(f"{room}/{file}", encoding="utf-8") as it:
            was = it.read()
        with open(f"{room}/{file}", "w", encoding="utf-8") as it:
            it.write(was.replace(old, "\n".join([*texts, old])))


def put_proofs(crate, room, bodies):
    """Puts the proofs by hand to their bodies."""
    for body in bodies:
        if body.proof:
            at = "/".join([room, "proofs", *home_of(crate, body), body.function])
            os.makedirs(at)
            with open(f"{at}/{'Answers' if body.is_answered else 'Proof'}.antt", "w", encoding="utf-8") as it:
                it.write(re.sub(r"\bwrong(?=\b|_spec\b)", body.function, body.proof_text))


def stop_on_place(crate, body):
    """Raises where the file of a body, or the line that it stands in front of, is not there."""
    if os.path.normpath(body.file) != body.file or not body.file.startswith("src/"):
        raise BadBody("its file is none of src/")
    times = kit.text_of(f"{crate.folder}/{body.file}").count(body.old) if os.path.isfile(f"{crate.folder}/{body.file}") else 0
    if times != 1:
        raise BadBody(f"{body.file} has its old text {times} times, and not once")
