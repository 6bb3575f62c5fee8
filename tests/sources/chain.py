"""What the promises of the crates rest on: from the clauses of public calls to the definitions that a reader has to believe.

A clause rests on the definitions that it names, and on the types and traits of its call's signature; a definition on what it names; a type
with a `Model` on that model's `Value`, and one without on its fields; each type on what it owns beside these, by its `also_owns`; a trait on its
ghost members. What the `view` of a model names is told apart: contracts see a value of this type and never the fields, so how it comes of
these is no part of a promise. What a library exports to C is among its public calls.

What is opaque ends the chain: a definition, or a ghost member of a trait, of which callers never learn what it says. One call gives it and
another asks for it, and whatever it says, a caller has what the clauses and laws around it say.
"""

import collections
import os
import re

import sources
from specs import Rust, Spec, modules, names_in, scope_of

# A promise of a crate: the name of its call, as in `a of T`, or of an impl, as in `A for T`; what its clauses name; what those name that say
# what is so afterwards; and whether it is one that a program makes to its user.
Promise = collections.namedtuple("Promise", "name names given is_program")

# A ghost member of a trait whose comment says that it is opaque.
OPAQUE = re.compile(r"^    // Opaque: .*\n(?:    //.*\n)*    ghost (\w+):", re.M)
USE = re.compile(r"^(?:pub(?:\([^)]*\))? )?use ([^;]+);", re.M)
FUNCTION = r"(?:pub(?:\([^)]*\))? )?"


def words(text):
    return set(re.findall(r"\w+", text))


class Crates:
    """The crates below a folder but for those of tests, their modules of specs, their types and their promises."""

    def __init__(self, top):
        self.top = top
        paths = [os.path.dirname(path) for path in sources.files(top, "crates/*/src") if not path.endswith("_tests/src")]
        self.paths = {os.path.basename(path): path for path in paths}
        self.modules = {(crate, name): it for crate, path in self.paths.items() for name, it in modules(path, self.paths).items()}
        self.types = {Rust(crate, name): it for crate, path in self.paths.items() for name, it in sources.types(path).items()}
        self.scopes, self.found = {}, {}
        self.promises = {crate: list(self.promises_of(crate)) for crate in self.paths}

    # What a text names

    def scope(self, path):
        """What the names of a file mean that are not in a body: types and traits, and what it brings by `ghost use`."""
        if path not in self.scopes:
            own, text = os.path.relpath(path, os.path.join(self.top, "crates")).split(os.sep)[0], sources.read(path)
            scope = {type_.name: type_ for type_ in self.types if type_.crate == own}
            for use in USE.findall(sources.without_comments(text)):
                if use.split("::")[0] in self.paths:
                    scope.update((type_.name, type_) for type_ in self.imported(use.split("::")[0], words(use)))
            self.scopes[path] = {**scope, **scope_of("\n".join(re.findall(r"^ghost use .*", text, re.M)), self.paths)}
        return self.scopes[path]

    def imported(self, crate, names):
        """The types of these names that a crate gives out, its own or those of a crate below it."""
        for name in names:
            others = [type_ for type_ in self.types if type_.name == name]
            yield from [type_ for type_ in others if type_.crate == crate] or others[:1]

    def names_in(self, texts, path, body=""):
        """What the words of texts name that stand in a file, in a body of it if one is given, but for parameters and fields."""
        text = re.sub(r"^ *ghost use .*", "", " ".join(texts), flags=re.M)
        inner = scope_of("\n".join(re.findall(r"^    ghost use .*", body, re.M)), self.paths)
        scope = {**self.scope(path), **inner, **dict.fromkeys(re.findall(r"(\w+): ", text))}
        return names_in(re.sub("[<>&:⟦⟧]", " ", text), scope, self.paths)

    def names_of_call(self, function, part, path, kinds=("requires", "ensures")):
        """What the signature and the clauses of these kinds of a function name."""
        clauses = [clause.text for clause in function.clauses if clause.kind in kinds]
        return self.names_in([function.signature, part.head, part.owner, *clauses], path, part.body if part.owner else "")

    def promise(self, name, function, part, path, is_program=False):
        return Promise(name, *(self.names_of_call(function, part, path, kinds) for kinds in (("requires", "ensures"), ("ensures",))), is_program)

    # Promises

    def promises_of(self, crate):
        path = self.paths[crate]
        given = sources.exported(path)
        public = {type_.name for type_, it in self.types.items() if type_.crate == crate and it.is_public}
        for call in sources.calls(path):
            yield self.promise(call.name, call.function, call.part, call.path)
        for impl in sources.impls(path):
            if impl.trait != "Model" and impl.type in (public if given is None else given):
                names = self.names_of_impl(impl)
                if names - {Rust(crate, impl.type)}:
                    yield Promise(f"{impl.trait} for {impl.type}", names, names, False)
        if given is None:
            yield from self.program(path)

    def names_of_impl(self, impl):
        """What an impl of a trait says of a type: its ghost members, but for the opaque ones and the proofs of laws, and clauses of its own."""
        untold = self.laws(impl.trait) | self.opaque_members(impl.trait)
        said = [texts[0] for name, texts in sources.ghosts(impl.part.body).items() if name not in untold]
        calls = [it for it in sources.functions(impl.part.body, "    ") if it.clauses]
        return self.names_in([impl.type, *said], impl.path, impl.part.body).union(*(self.names_of_call(it, impl.part, impl.path) for it in calls))

    def laws(self, trait):
        """The ghost members of a trait that no clause and no other member of it names."""
        texts = [it.text for type_, it in self.types.items() if type_.name == trait and it.kind == "trait"]
        members = sources.ghosts("".join(texts))
        clauses = [clause.text for text in texts for function in sources.functions(text, "    ") for clause in function.clauses]
        named = {word for name, said in members.items() for word in words(" ".join(said)) if word != name}
        return set(members) - named - words(" ".join(clauses))

    def opaque_members(self, trait):
        paths = {it.path for type_, it in self.types.items() if type_.name == trait and it.kind == "trait"}
        return {name for path in paths for name in OPAQUE.findall(sources.read(path))}

    def program(self, path):
        """The promises of a program: the functions of its first file that have clauses, and those with clauses that this file calls, of its own
        crate or of a library that it imports them from."""
        main = os.path.join(path, "src", "main.rt")
        code = sources.without_comments(sources.read(main))
        called = set(re.findall(r"\b(\w+)\(", code))
        imported = [(self.paths.get(use.split("::")[0]), called & words(use)) for use in USE.findall(code)]
        for crate, names in [(path, called), *((crate, names) for crate, names in imported if crate and names)]:
            for file in sources.files(crate, "src/**/*.rt"):
                text = sources.read(file)
                for function in sources.functions(text, FUNCTION):
                    if function.clauses and (file == main or function.name in names):
                        yield self.promise(function.name, function, sources.Part("", "", text), file, is_program=True)

    # What a name rests on

    def rests_on(self, name):
        if name not in self.found:
            self.found[name] = self.definition_names(name) if isinstance(name, Spec) else self.type_names(name)
        return self.found[name]

    def definition_names(self, name):
        return self.modules[name.crate, name.module].definitions[name.name].names

    def type_names(self, name):
        type_ = self.types[name]
        has_value = type_.model and "Value" in sources.ghosts(type_.model.part.body)
        seen = self.model_names(type_, "Value") if has_value else self.member_names(type_)
        return seen | self.model_names(type_, "also_owns")

    def model_names(self, type_, member):
        """What a member of the model of a type names, or none if it has no such member."""
        return self.names_in(sources.ghosts(type_.model.part.body).get(member, []), type_.model.path, type_.model.part.body) if type_.model else set()

    def member_names(self, type_):
        """What the fields of a type name, but not how a ghost one is coded, or the ghost members of a trait."""
        said = [type_.text.partition("\n")[0], *(text for texts in sources.ghosts(type_.text).values() for text in texts)]
        return self.names_in(said if type_.kind == "trait" else [re.sub(r" by \{[^}]*\}", "", type_.text)], type_.path, type_.text)

    def chain(self, names):
        """All that some names rest on, and they themselves, but for what is opaque."""
        found, left = set(), list(names)
        while left:
            name = left.pop()
            if name not in found and not self.is_opaque(name):
                found.add(name)
                left += self.rests_on(name)
        return found

    def is_opaque(self, name):
        module = self.modules.get((name.crate, name.module)) if isinstance(name, Spec) else None
        return bool(module and name.name in module.definitions and module.definitions[name.name].is_opaque)

    def opaque(self, names):
        """The opaque definitions at which the chain of some names ends."""
        return {it for it in set(names).union(*map(self.rests_on, self.chain(names))) if self.is_opaque(it)}
