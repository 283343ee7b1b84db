"""Which definitions and types an item cites, by the names that its file brings in."""

import re


class Citations:
    """What cites what in the crates."""

    def __init__(self, crates):
        self.crates = crates
        self.definitions = {}   # by module and name; a case of data stands for the data
        self.types = {}         # by crate and name
        self.models = {}        # by crate and name of a type: the impl by which contracts read it
        self.known = {}         # what `cited_by` has found
        self.place = {}         # the place of each item among all
        for crate in crates.values():
            for item in crate.items + crate.specs:
                self.place[item] = len(self.place)
                self.add(item)

    def add(self, item):
        """Adds an item to those that may be cited."""
        if item.is_definition():
            module, _ = item.scope[item.name]
            for name in [item.name, *(x.name for x in item.parts if x.kind == "case")]:
                self.definitions[module, name] = item
        elif item.kind in ("struct", "enum", "trait"):
            self.types[item.crate, item.name] = item
        elif item.implements == "Model":
            self.models[item.crate, item.name] = item

    def in_text(self, text, scope):
        """What a clause or a definition cites, in its order. Names that it binds, and the labels of
        records, cite nothing."""
        text = re.sub(r'(--|//)[^\n]*|"[^"\n]*"', "", text)       # without comments and strings
        binders = re.findall(r"[({]([\w ]+) :", text) + re.findall(r"λ ([\w ]+)\.", text)
        bound = set(" ".join(binders).split())
        found = []
        # Names, perhaps with dots in them, that aren't labels of records (`a = ..`).
        for word in re.findall(r"(?<![\w.])[A-Za-z_][\w'?]*(?:\.[A-Za-z_]\w*)*(?! =[^=])", text):
            first, _, rest = word.partition(".")
            if first in scope and first not in bound:
                module, name = scope[first]
                found.append(self.named(module, name or rest.split(".")[0]))
        return unique(x for x in found if x)

    def named(self, module, name):
        """The definition of this name in a module. Types have modules of their own: that of View is
        Rattle.pin_core.specs.declared.view.View."""
        if ".declared." in module:
            words = module.split(".")
            return self.types.get((words[1], words[words.index("declared") + 2]))
        return self.definitions.get((module, name))

    def types_in(self, item):
        """The types and traits that a declaration or a signature names, of its crate or of one that
        this uses."""
        for word in re.findall(r"\b[A-Z]\w+", f"{item.owner} {item.text}"):
            crates = [item.crate, *self.crates[item.crate].uses]
            yield from [self.types[x, word] for x in crates if (x, word) in self.types][:1]

    def cited_by(self, item):
        """All that an item cites. A contract cites the types of its signature, too; a type the impl
        by which contracts read it; a trait what its functions cite."""
        if item not in self.known:
            self.known[item] = unique(x for x in self.citations(item) if x is not item)
        return self.known[item]

    def citations(self, item):
        """What `cited_by` finds, with repetitions."""
        if item.is_definition():
            yield from self.in_text(f"{item.text}\n{item.parameters}", item.scope)
            return
        for part in item.parts:
            if part.name != "invariant":        # which holds of every value of the type
                yield from self.in_text(part.text, item.scope)
        yield from self.types_in(item)
        if item.kind in ("struct", "enum") and (item.crate, item.name) in self.models:
            yield self.models[item.crate, item.name]
        if item.kind == "trait":
            for function in item.functions:
                yield from self.cited_by(function)

    def closure(self, roots):
        """The roots and all that they rest on. What an item cites follows it, unless it came before."""
        found, waiting = {}, list(reversed(roots))
        while waiting:
            item = waiting.pop()
            if item not in found:
                found[item] = True
                waiting += reversed(self.cited_by(item))
        return list(found)

    def in_reading_order(self, items):
        """The items by file, in their order there. A file comes after those that it cites, unless
        these cite it, too."""
        files, order, begun = {}, [], set()
        for item in sorted(items, key=self.place.get):
            files.setdefault(item.path, []).append(item)

        def add(path):
            if path in files and path not in begun:
                begun.add(path)
                for item in files[path]:
                    for cited in self.cited_by(item):
                        add(cited.path)
                order.append(path)

        for path in files:
            add(path)
        return {path: files[path] for path in order}


def unique(things):
    """The things, each once, in their order."""
    return list(dict.fromkeys(things))
