"""References that do not begin at the top: they begin at a base that a package around them names."""

# How many bases may lead from one to the next.
DEEPEST = 64


class References:
    """The relative references of a tree. They become whole, and who reads them later sees no difference."""

    def __init__(self, tree):
        self.tree, self.bases = tree, {}
        self.package_of = {}
        for root in tree.roots:
            self.walk(root)

    def walk(self, root):
        """Finds the package around each relative reference, and the bases that each package names; packages of one path are parts of one."""
        waiting = [(root, "")]
        while waiting:
            element, package = waiting.pop()
            if element.tag == "AR-PACKAGE":
                package = self.tree.path_of.get(element, package)
            for base in (*element.iterfind("REFERENCE-BASES/REFERENCE-BASE"), *element.iterfind("ADMIN-DATA//REFERENCE-BASE")):
                self.bases.setdefault(package, []).append(base)
            for child in element:
                if child in self.tree.relative:
                    self.package_of[child] = package
                elif len(child):
                    waiting.append((child, package))

    def resolve(self):
        for leaf in self.tree.relative:
            if leaf in self.package_of and (path := self.whole(leaf)):
                leaf.text = path

    def whole(self, leaf):
        """The path to which a reference leads from its base, or none: the base of its label, or one that is the default, of the nearest package around
        it that has one. A base may be relative itself."""
        path = ""
        for _ in range(DEEPEST):
            if not (start := (leaf.text or "").strip()):
                return None
            path = f"{start.rstrip('/')}/{path}" if path else start
            if path.startswith("/") or leaf not in self.package_of:
                return path
            found = self.base(self.package_of[leaf], self.tree.relative[leaf])
            if found is None:
                return None
            package, base = found
            self.tree.read |= {it for it in base.iter() if not len(it)}
            if self.says(base, "BASE-IS-THIS-PACKAGE"):
                return f"{package}/{path}"
            leaf = base.find("PACKAGE-REF")
            if leaf is None:
                return None
        return None

    def base(self, package, label):
        """The package that names the base, and the base."""
        while True:
            for base in self.bases.get(package, ()):
                if self.says(base, "IS-DEFAULT") if label is None else (base.findtext("SHORT-LABEL") or "").strip() == label.strip():
                    return package, base
            if not package:
                return None
            package = package.rpartition("/")[0]

    @staticmethod
    def says(base, tag):
        return (base.findtext(tag) or "").strip() in ("true", "1")
