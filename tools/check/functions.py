"""The functions of a source that `rt fmt` has laid out, found by its lines, and where their proofs lie."""

import re
import shutil
from pathlib import Path

TYPE = re.compile(r"^(?:pub(?:\([a-z]+\))? )?(?:struct|enum) (\w+)", re.M)
FN = re.compile(r"^( *)(?:pub(?:\([a-z]+\))? )?(?:const )?(?:extern \S+ )?fn (\w+)")
OWNER = re.compile(r"impl(?:<.*?>)? (\w+)")
# A proof with nothing in it, which the prover takes for what the contract says, and a body that costs next to nothing to read.
HOLE = "use Rattle.{0}.proofs.{1}.Statement.{{statement}}\n\npub {2}_spec : {{M : Type 1}} → statement M\n{2}_spec = ?\n"
ENDLESS = "loop {}"


class Function:
    """A function of a source that `rt fmt` has laid out, and its lines, from its comment and attributes on."""

    def __init__(self, path, lines, at, number, types):
        opens = FN.match(lines[at])
        self.path, self.name, self.key = path, opens[2], (path, opens[2], number)
        # (a brace in a text of several lines has more of the text behind it)
        ends = (
            i
            for i in range(at, len(lines))
            if lines[i] in (opens[1] + "}", opens[1] + "{}") and "".join(lines[i + 1 : i + 2]).strip() in ("", "}")
        )
        self.last = next(ends, at) + 1
        # The lines of its body, if that can be left out: what is const may be computed while the crate is read.
        signature = () if " const fn " in f" {lines[at]}" else range(at, self.last - 2)
        begins = [i for i in signature if lines[i] == opens[1] + "{"] or [i for i in signature if lines[i].endswith(" {")]
        self.body = slice(begins[0] + 1, self.last - 1) if begins else None
        above = next((it for it in reversed(lines[:at]) if it.startswith("impl")), "") if opens[1] else ""
        self.impl = [above] if above else []
        while at and re.match(r" *(#\[|//)", lines[at - 1]):
            at -= 1
        self.first, self.lines = at + 1, lines[at : self.last]
        is_of_trait, owner = " for " in above, OWNER.match(above)
        # (two modules may each have a type of a name)
        is_here = is_of_trait or not owner or owner[1] in TYPE.findall("\n".join(lines))
        self.module = module_of(path) if is_here else types.get(owner[1], "")
        # Its whole name, but for the method of a trait, which is called after the trait, too: then its module's.
        parts = [self.module, owner and owner[1], self.name]
        self.whole = self.module if is_of_trait else "::".join(it for it in parts if it)
        # (functions that call one another in a cycle have one proof)
        self.has_proof = not is_of_trait and not any("#[cycle(" in it for it in self.lines)

    def has(self, said):
        return said[1] == self.path and self.first <= int(said[2]) <= self.last

    def owns(self, folder, goal):
        # (functions that call one another in a cycle have one folder, and goals that begin with their names)
        parts = folder.split("/")
        is_own = parts[-1].lstrip("+") == self.name or parts[-1][0] == "+" and goal.startswith(f"`{self.name}-")
        return is_own and f"{folder}/".startswith(f"{self.module.replace('::', '/')}/" if self.module else "")

    def proof(self, room):
        """The folder of its proof, and whether that is its own: functions that call one another have one proof."""
        folder = Path(room, "proofs", *self.whole.split("::"))
        return folder, self.has_proof and not folder.with_name(f"+{self.name}").exists()

    def copy_as(self, name, room):
        """Adds the function, as it was found, at the end of its file under another name, with its proof. Returns its key."""
        start, text = Path(room, self.path), "\n".join(self.lines)
        text = re.sub(rf"\bfn {self.name}\b", f"fn {name}", text, count=1)
        start.write_text("\n".join([start.read_text(), *self.impl, text, *["}" for _ in self.impl], ""]))
        folder, dotted = self.proof(room)[0], f"proofs.{self.whole.replace('::', '.')}"
        if folder.exists():
            shutil.copytree(folder, folder.with_name(name))
            for file in folder.with_name(name).glob("*.antt"):
                cited = re.sub(rf"\b{re.escape(dotted)}\.", f"{dotted.removesuffix(self.name)}{name}.", file.read_text())
                file.write_text(cited.replace(f"{self.name}_spec", f"{name}_spec"))
        return (self.path, name, 0)

    def leave_out(self, crate, room):
        """Puts a hole in the place of the function's proof, and an endless loop in that of its body, on as many lines. One that
        calls itself stays, since its proof is that of a cycle."""
        folder, is_own = self.proof(room)
        if not is_own:
            return
        folder.mkdir(parents=True, exist_ok=True)
        for name in ("Answers", "Invariants"):
            folder.joinpath(f"{name}.antt").unlink(missing_ok=True)
        folder.joinpath("Proof.antt").write_text(HOLE.format(crate, self.whole.replace("::", "."), self.name))
        if self.body:
            lines = Path(room, self.path).read_text().split("\n")
            lines[self.body] = [ENDLESS] + [""] * (self.body.stop - self.body.start - 1)
            Path(room, self.path).write_text("\n".join(lines))


def module_of(path):
    return "" if path in ("src/lib.rt", "src/main.rt") else path[4:-3].replace("/", "::")


def types_of(folder):
    """The module that declares each type of a crate. A method has its name there, wherever its impl stands."""
    files = {str(it.relative_to(folder)): it.read_text() for it in Path(folder, "src").rglob("*.rt")}
    return {name: module_of(path) for path, text in files.items() for name in TYPE.findall(text)}


def has_body(lines, at):
    """Whether the function that begins at a line has a body. One that a trait declares has none, and ends in a semicolon."""
    return next((not line.endswith(";") for line in lines[at:] if line.endswith(("{", "{}", ";"))), True)


def functions(path, text, types):
    lines, found = text.split("\n"), []
    for at in [i for i, line in enumerate(lines) if FN.match(line) and has_body(lines, i)]:
        found.append(Function(path, lines, at, sum(it.name == FN.match(lines[at])[2] for it in found), types))
    return found
