"""What the program and the files tell of a whole image set, for the commands that show it."""
import os

from formats import mappings_of, table_of
from space import free_of, holes
from texts import document_of
from words import is_uuid


def shown_name(fields):
    return fields["name"] if "name" in fields else f"hex:{fields['name_hex']}"


class Known:
    """A set's modules, regions, namespaces, label areas, arenas and free space; a fault of the set ends the command."""

    def __init__(self, program, folder):
        self.folder = folder
        nfit, listed = program.records(folder, "nfit"), program.records(folder, "list")
        self.modules = [it for kind, it in nfit if kind == "module"]
        self.regions = [it for kind, it in nfit if kind == "region"]
        self.namespaces = []
        for kind, fields in listed:
            if kind == "ns":
                self.namespaces.append({**fields, "extents": []})
            else:
                self.namespaces[-1]["extents"].append(fields)
        self.free = {it["region"]: it for it in free_of(folder, nfit, listed)}
        self.mappings = mappings_of(table_of(folder))
        self.areas, self.arenas = {}, {}
        for it in self.modules:
            status, text = program.run([folder, "-", "labels", str(it["module"])])
            self.areas[it["module"]] = document_of("labels", text) if status == 0 else {"index": None, "labels": [], "bad": [], "fault": text.strip()}
        for it in self.namespaces:
            if it["mode"] == "sector" and it["status"].startswith("complete") and is_uuid(it["uuid"]):
                status, text = program.run([folder, "-", "info", it["uuid"]])
                self.arenas[it["uuid"]] = document_of("info", text)["arenas"] if status == 0 else text.strip()

    def size_of(self, module):
        try:
            return os.path.getsize(os.path.join(self.folder, f"contents-{module}.bin"))
        except OSError:
            return 0

    def mapped(self, module):
        """The mappings of a module with the region of each, if the table has a line for it."""
        handle = next(it["handle"] for it in self.modules if it["module"] == module)
        regions = {it["index"]: it for it in self.regions}
        return [(it, regions.get(it["index"])) for it in self.mappings if it["handle"] == handle]

    def extents_on(self, module):
        """The extents on a module in rising order, each with its namespace."""
        return sorted(((it, ns) for ns in self.namespaces for it in ns["extents"] if it["module"] == module), key=lambda it: it[0]["start"])

    def holes_on(self, module):
        """The pieces of a module that are mapped and in no namespace."""
        used = [(it["start"], it["start"] + it["length"]) for it, _ in self.extents_on(module)]
        for it, _ in self.mapped(module):
            inside = [(max(start - it["start"], 0), end - it["start"]) for start, end in used if end > it["start"] and start < it["start"] + it["size"]]
            yield from ((it["start"] + start, length) for start, length in holes(it["size"], 1, inside))


def parts_of(arena):
    """The parts of an arena in order, with their bytes: the layout of new arenas, which Linux's have too (docs/FORMATS.md)."""
    inner = -(-arena["sector"] // 64) * 64
    data = arena["blocks"] * inner
    slots = -(-4 * arena["sectors"] // 4096) * 4096
    log = -(-64 * arena["lanes"] // 4096) * 4096
    return [("info block", 4096), ("blocks", data), ("map", slots), ("log", log), ("copy of the info block", 4096)]
