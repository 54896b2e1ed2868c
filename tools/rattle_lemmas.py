"""The lemmas of the repository, each with what it states."""
import re

from rattle_crates import ROOT

DECLARATION = re.compile(r"^( *)(?:pub )?([^\s:(){}]+) : (.*)$")
MODULE = re.compile(r"^( *)module _ (.*)$")
# The variables that a statement or a module binds.
BOUND = re.compile(r"[({]([^(){}:]+) : ")
IMPORTED = re.compile(r"^use (Rattle\.mysql_\w+\.[\w.]+)\.\{([^}]*)\}$", re.M)
WORD = re.compile(r"[^\s(){},]+|[(){},]")
# A shorter statement says too little to be looked for in other files.
LEAST = 60


def whole(lines, start, indentation):
    """The text of what begins at this line, with the lines that go on behind it."""
    text = [lines[start].strip()]
    for line in lines[start + 1 :]:
        if not line.startswith(indentation + "    "):
            break
        text.append(line.strip())
    return " ".join(text)


def numbered(statement, homes):
    """The statement with a number for each variable and the home of each name that is imported."""
    variables = {}
    for names in BOUND.findall(statement):
        for name in names.split():
            variables.setdefault(name, str(len(variables)))
    return " ".join(variables.get(word, homes.get(word, word)) for word in WORD.findall(statement))


def lemmas(path):
    """Each lemma of a file of proofs: its name and its statement, behind the parameters of the modules around it."""
    text = path.read_text()
    lines = text.splitlines()
    homes = {name.strip(): f"{home}.{name.strip()}" for home, names in IMPORTED.findall(text) for name in names.split(",")}
    around = []
    for number, line in enumerate(lines):
        module, declaration = MODULE.match(line), DECLARATION.match(line)
        indentation = (module or declaration)[1] if module or declaration else None
        if indentation is not None:
            around = [(depth, parameters) for depth, parameters in around if depth < len(indentation)]
        if module:
            around.append((len(indentation), whole(lines, number, indentation).removesuffix(" where")))
        elif declaration:
            own = whole(lines, number, indentation).split(" : ", 1)[1]
            if "→" in own and len(own) >= LEAST and "goal." not in own:
                yield declaration[2], numbered(" ".join([*(parameters for _, parameters in around), own]), homes)


def twins():
    """The lemmas that state what one before them states, in any file."""
    first = {}
    for path in sorted(ROOT.glob("crates/*/proofs/**/*.antt")):
        for name, statement in lemmas(path):
            here = f"{path.relative_to(ROOT)}: {name}"
            if statement in first:
                yield f"{here} states what {first[statement]} does"
            first.setdefault(statement, here)
