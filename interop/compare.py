"""Holds our export and import against programs that read and write Newick text.

    compare.py OURS FOLDER COUNT SEED

OURS is the program of ours.c, FOLDER where files may be written. Trees are made here, by chance; what every program
reads is turned into splits by one function here, and compared with the splits of the tree that was made.
"""
import io
import random
import re
import subprocess
import sys

sys.setrecursionlimit(10_000)
LETTERS = "ABCDEFGHIJKLMNOPQRSTUVWXYZabcdefghijklmnopqrstuvwxyz"
NAME_BYTES = LETTERS + "0123456789.-"

# ---- Trees: a leaf is its name, a node the list of its parts. ----------------------------------------------------


def joined(parts, top, shape, chance):
    """A tree of these parts, two joined at a time until so many are left."""
    parts = list(parts)
    while len(parts) > top:
        first = len(parts) - 1 if shape == "comb" else 0 if shape == "balanced" else chance.randrange(len(parts))
        one = parts.pop(first)
        other = parts.pop(0 if shape != "random" else chance.randrange(len(parts)))
        parts.append([one, other])
    return parts


def splits(tree, names):
    """The splits: of every edge between two nodes the side without the first name, as a number of one bit a name."""
    place = {name: 1 << at for at, name in enumerate(names)}
    everything, found = (1 << len(names)) - 1, set()

    def side(part):
        if not isinstance(part, list):
            return place[part]
        under = 0
        for other in part:
            under |= side(other)
        outer = everything & ~under if under & 1 else under
        if 1 < bin(outer).count("1") < len(names) - 1:
            found.add(outer)
        return under

    if side(tree) != everything:
        raise ValueError("other names")
    return found


def listing_of(tree, names, chance):
    """A listing of the tree, hung from the first name, its children in any order."""
    number, around = {name: at for at, name in enumerate(names)}, {}

    def join(one, other):
        around.setdefault(one, []).append(other)
        around.setdefault(other, []).append(one)

    def walk(part):
        if not isinstance(part, list):
            return number[part]
        nodes.append(part)
        here = -len(nodes)
        for other in part:
            join(here, walk(other))
        return here

    nodes, rows = [], []
    walk(tree)

    def hang(node, back):
        if node >= 0:
            return node
        children = [hang(other, node) for other in around[node] if other != back]
        chance.shuffle(children)
        rows.extend(children)
        return len(names) + len(rows) // 2 - 1

    hang(around[0][0], 0)
    return rows


def tree_of_listing(listing, names):
    parts = list(names)
    for row in range(0, len(listing), 2):
        parts.append([parts[listing[row]], parts[listing[row + 1]]])
    return [parts[-1], names[0]]


def any_names(count, chance):
    kind, names = chance.randrange(4), {}
    while len(names) < count:
        if kind == 0:
            name = f"strain-{len(names)}"
        elif kind == 1:
            name = chance.choice(LETTERS) + "".join(chance.choices(NAME_BYTES, k=chance.randrange(1, 12)))
        elif kind == 2:
            name = "".join(chance.choices(NAME_BYTES, k=chance.randrange(2, 41)))
        else:
            name = f"{chance.choice(['ale', 'lager', 'wheat'])}.{len(names)}-{chance.randrange(100)}"
        names[name] = True
    names = list(names)
    chance.shuffle(names)
    return names


def sheet_of(names):
    n, stand = len(names), b"".join(bytes([len(name)]) + name.encode() for name in names)
    trailer = n.to_bytes(2, "little") + len(stand).to_bytes(4, "little") + b"QT"
    return stand + bytes(n * (n - 1)) + trailer


def plain(text):
    """The text without quotes around names and without labels of nodes, which 02's grammar has not."""
    return re.sub(r"\)[^(),:;]*", ")", text.replace("'", ""))


def blanks_added(text, chance):
    return "".join(byte + chance.choice(["", " ", "\t", "\r\n"]) * (byte in "(,)") for byte in text)


# ---- The programs. Each reads a text as a tree of lists, and writes texts of a tree that it read. ----------------


def nested(node, children, name):
    below = children(node)
    return [nested(child, children, name) for child in below] if below else name(node)


class DendroPy:
    name = "DendroPy"

    def __init__(self):
        import dendropy

        self.of, self.version = dendropy, dendropy.__version__

    def tree(self, text):
        # Unless it is told otherwise, it takes names that differ in capital letters alone for one.
        names = self.of.TaxonNamespace(is_case_sensitive=True)
        return self.of.Tree.get(data=text, schema="newick", preserve_underscores=True, taxon_namespace=names,
                                case_sensitive_taxon_labels=True)

    def read(self, text):
        label = lambda node: node.taxon.label if node.taxon else ""
        return nested(self.tree(text).seed_node, lambda node: node.child_nodes(), label)

    def write(self, text, chance):
        tree = self.tree(text)
        for edge in tree.preorder_edge_iter():
            edge.length = chance.choice([chance.random(), chance.random() * 1e-7, 3])
        kind = chance.randrange(3)
        if kind == 1:
            edges = [edge for edge in tree.preorder_edge_iter() if edge.tail_node is not None]
            tree.reroot_at_edge(chance.choice(edges), length1=0.5, length2=0.25)
        elif kind == 2:
            tree.to_outgroup_position(chance.choice(tree.leaf_nodes()))
        return tree.as_string(schema="newick", suppress_rooting=True, unquoted_underscores=True).strip("\n") + "\n"


class Biopython:
    name = "Biopython"

    def __init__(self):
        import Bio
        from Bio import Phylo

        self.of, self.version = Phylo, Bio.__version__

    def tree(self, text):
        return self.of.read(io.StringIO(text), "newick")

    def read(self, text):
        return nested(self.tree(text).root, lambda node: node.clades, lambda node: node.name or "")

    def write(self, text, chance):
        tree = self.tree(text)
        for clade in tree.find_clades():
            clade.branch_length = chance.random()
        if chance.random() < 0.7:
            tree.root_with_outgroup(chance.choice(tree.get_terminals()))
        out = io.StringIO()
        self.of.write(tree, out, "newick")
        return out.getvalue()


class Skbio:
    name = "scikit-bio"

    def __init__(self):
        import skbio

        self.of, self.version = skbio, skbio.__version__

    def tree(self, text):
        return self.of.TreeNode.read(io.StringIO(text), format="newick", convert_underscores=False)

    def read(self, text):
        return nested(self.tree(text), lambda node: node.children, lambda node: node.name or "")

    def write(self, text, chance):
        tree = self.tree(text)
        for node in tree.traverse(include_self=False):
            node.length = round(chance.random(), 5)
        inner = [node for node in tree.non_tips()]
        if inner and chance.random() < 0.7:
            tree = tree.root_at(chance.choice(inner))
        out = io.StringIO()
        tree.write(out, format="newick")
        return out.getvalue()


class Ete:
    name = "ETE"

    def __init__(self):
        import ete3

        self.of, self.version = ete3, ete3.__version__

    def tree(self, text):
        return self.of.Tree(text, format=1)

    def read(self, text):
        return nested(self.tree(text), lambda node: node.children, lambda node: node.name)

    def write(self, text, chance):
        tree = self.tree(text)
        for node in tree.traverse():
            node.dist = chance.random()
        if chance.random() < 0.7:
            tree.set_outgroup(chance.choice(tree.get_leaves()))
        return tree.write(format=5)


class Batch:
    """A program of its own, which is given all texts at once."""

    def __init__(self, name, command, version, folder):
        self.name, self.command, self.folder = name, command, folder
        self.version = subprocess.run(version, capture_output=True, text=True, check=True).stdout.strip()

    def run(self, what, texts):
        given, told = f"{self.folder}/{self.name}.in", f"{self.folder}/{self.name}.out"
        with open(given, "w") as file:
            file.writelines(text.replace("\n", " ") + "\n" for text in texts)
        subprocess.run([*self.command, what, given, told], check=True, stderr=subprocess.DEVNULL)
        with open(told) as file:
            return [line.rstrip("\n") for line in file]

    @staticmethod
    def tree_of(line):
        if not line.startswith("ok "):
            raise ValueError(line)
        tips, edges = (line.split(" ") + ["", ""])[1:3]
        tips, parts, below = tips.split(","), {}, set()
        for edge in filter(None, edges.split(",")):
            one, other = map(int, edge.split("-"))
            parts.setdefault(one, []).append(other)
            below.add(other)
        tops = set(parts) - below
        name = lambda node: tips[node - 1] if node <= len(tips) else ""
        return nested(min(tops), lambda node: parts.get(node, []), name) if tops else tips[0]


def programs(folder, here):
    for make in (DendroPy, Biopython, Skbio, Ete):
        try:
            yield make()
        except ImportError as missing:
            print(f"{make.name}: not here ({missing})")
    for name, command, version in [
        ("ape", ["Rscript", f"{here}/ape.R"], ["Rscript", "-e", 'cat(as.character(packageVersion("ape")))']),
        ("BioPerl", ["perl", f"{here}/bioperl.pl"],
         ["perl", "-MBio::Root::Version", "-e", "print $Bio::Root::Version::VERSION"]),
    ]:
        try:
            yield Batch(name, command, version, folder)
        except (OSError, subprocess.CalledProcessError) as missing:
            print(f"{name}: not here ({missing})")


def told_by(program, texts):
    """What a program reads, a tree or an error, of each text."""

    def one(read, given):
        try:
            return read(given)
        except Exception as error:
            return error

    if isinstance(program, Batch):
        return [one(program.tree_of, line) for line in program.run("read", texts)]
    return [one(program.read, text) for text in texts]


def written_by(program, texts, chance):
    """The texts that a program writes of the trees it reads from texts; nothing where it fails."""

    def one(text):
        try:
            return program.write(text, chance)
        except Exception as error:
            print(f"{program.name} does not write the tree of {text[:200]}: {error}")
            return ""

    return program.run("write", texts) if isinstance(program, Batch) else [one(text) for text in texts]


# ---- Our side. ---------------------------------------------------------------------------------------------------


class Ours:
    def __init__(self, program):
        self.program = program

    def ask(self, requests):
        run = subprocess.run([self.program], input="".join(requests), capture_output=True, text=True, check=True)
        return run.stdout.splitlines()

    def exports(self, cases):
        told = self.ask(f"export {sheet.hex()} {','.join(map(str, listing))}\n" for sheet, listing in cases)
        return [line if line.startswith("refused") else bytes.fromhex(line).decode() for line in told]

    def imports(self, cases):
        return self.ask(f"import {sheet.hex()} {text.encode('latin-1').hex() or '-'}\n" for sheet, text in cases)


# Texts that are not right, or nearly so, with the sheet of a, b, c, d and e; and what is odd in them.
ODD = [
    ("(a,b,(c,(d,e)));", "an export"),
    (" ( a , b ,\t( c :1e-3 , ( d , e ) :-2 ) ) :.5 ; ", "blanks and lengths"),
    ("(a,b,(c,(d,e)))", "no semicolon"),
    ("(a,b,(c,(d,e));", "a bracket left open"),
    ("(a,b,(c,(d,e))));", "a bracket too many"),
    ("(a,b,(c,(d,e))); x", "more behind the semicolon"),
    ("(a,,b,(c,(d,e)));", "a name left out"),
    ("(a,b,(c,(d,)));", "the last name left out"),
    ("(a b,(c,(d,e)));", "a comma left out"),
    ("(a,b,(c,(d,e)x)y);", "labels of inner nodes"),
    ("('a',b,(c,(d,e)));", "quotes"),
    ("(a[x],b,(c,(d,e)));", "a comment"),
    ("(a:,b,(c,(d,e)));", "an empty length"),
    ("(a: 1,b,(c,(d,e)));", "a blank behind the colon"),
    ("(a:1:2,b,(c,(d,e)));", "two lengths"),
    ("(a:--,b:e,(c,(d,e)));", "lengths that are no numbers"),
    ("a;", "a name alone"),
    ("();", "an empty bracket"),
    ("", "an empty text"),
    ("(a,b,c,d,e);", "a top of five"),
    ("(a,b,(c,d,e));", "a node of three"),
    ("(a,(b),(c,(d,e)));", "a node of one"),
    ("((a,b,(c,(d,e))));", "a top of one"),
    ("(a,b,(c,(d,d)));", "a name twice"),
    ("(a,b,(c,d));", "a name missing"),
    ("(a,b,(c,(d,x)));", "an unknown name"),
    ("(" * 127 + "a" + ")" * 127 + ";", "127 brackets around a"),
]


def shape_of(tree):
    """A tree that was read, in few words."""
    if isinstance(tree, Exception):
        return "error"
    written = lambda part: "(" + ",".join(map(written, part)) + ")" if isinstance(part, list) else part
    text = written(tree)
    return text if len(text) <= 24 else f"read, {text.count('(')} brackets"


def print_odd(ours, others):
    sheet, names = sheet_of("abcde"), "abcde"
    due = splits(["a", "b", ["c", ["d", "e"]]], names)
    told = [told_by(program, [text for text, _ in ODD]) for program in others]
    replies = ours.imports([(sheet, text) for text, _ in ODD])
    print("\nOdd texts: what we answer (a refusal's number, and for 17 the offset), and what the others read.\n")
    print(f"| text | ours | {' | '.join(program.name for program in others)} |")
    print("|---|---|" + "---|" * len(others))
    for at, (_, what) in enumerate(ODD):
        reply = replies[at].split(" ")
        if reply[0] == "refused":
            ours_told = f"17 at {reply[2]}" if reply[1] == "17" else reply[1]
        else:
            listing = list(map(int, reply[0].split(",")))
            ours_told = "the tree" if splits(tree_of_listing(listing, names), names) == due else "ANOTHER TREE"
        cells = []
        for of_program in told:
            try:
                same = splits(of_program[at], names) == due
            except Exception:
                same = False
            cells.append("the tree" if same else shape_of(of_program[at]))
        print(f"| {what} | {ours_told} | " + " | ".join(cells) + " |")


def main():
    ours, folder, count, seed = Ours(sys.argv[1]), sys.argv[2], int(sys.argv[3]), int(sys.argv[4])
    here = __file__.rsplit("/", 1)[0]
    chance = random.Random(seed)
    others = list(programs(folder, here))
    if not others:
        sys.exit("interop: there is no other program here")

    trees, cases = [], []
    for at in range(count):
        n = [3, 4, 128, 127][at] if at < 4 else chance.randrange(3, 129)
        names = any_names(n, chance)
        shape = chance.choice(["comb", "balanced", "random", "random"])
        tree = joined(names, 3, shape, chance)
        order = list(names)
        chance.shuffle(order)
        trees.append((order, tree, splits(tree, order)))
        cases.append((sheet_of(order), listing_of(tree, order, chance)))
    exports = ours.exports(cases)

    differ, rows = 0, []
    for program in others:
        wrong_read = wrong_written = tops_of_two = blank = not_plain = 0
        for (names, _, due), tree, text in zip(trees, told_by(program, exports), exports):
            try:
                same = splits(tree, names) == due and len(due) == len(names) - 3
            except Exception as error:
                same, tree = False, tree if isinstance(tree, Exception) else error
            if not same and wrong_read == 0:
                print(f"{program.name} reads another tree: {text[:200]}: {str(tree)[:200]}")
            wrong_read += not same
        texts = written_by(program, exports, chance)
        as_written = ours.imports([(sheet, text) for (sheet, _), text in zip(cases, texts)])
        for at, text in enumerate(texts):
            if text != plain(text):
                not_plain += 1
                if not as_written[at].startswith("refused 17 "):
                    print(f"{program.name} writes quotes or labels, and it is not refused by 17: {text[:200]!r}")
                    wrong_written += 1
                texts[at] = plain(text)
            if chance.random() < 0.3:
                texts[at], blank = blanks_added(texts[at], chance), blank + 1
        replies = ours.imports([(sheet, text) for (sheet, _), text in zip(cases, texts)])
        for (names, _, due), reply, text in zip(trees, replies, texts):
            same = not reply.startswith("refused")
            same = same and splits(tree_of_listing(list(map(int, reply.split(","))), names), names) == due
            if not same and wrong_written == 0:
                print(f"{program.name} writes what is imported otherwise: {text[:200]!r}: {reply[:100]}")
            wrong_written += not same
            tops_of_two += parts_of_top(text) == 2
        rows.append((program, wrong_read, wrong_written, tops_of_two, blank, not_plain))
        differ += wrong_read + wrong_written

    print(f"\n{count} trees of 3 to 128 strains, from seed {seed}: exported by us and read there; written there with")
    print("lengths, from another root or none, some with blanks added between the words, and imported by us. Where")
    print("names were written in quotes or nodes with labels, the text was refused by 17, as 02 has it, and imported")
    print("without these.\n")
    print("| program | version | read otherwise | imported otherwise | two-way tops | blanks | quotes or labels |")
    print("|---|---|---|---|---|---|---|")
    for program, *figures in rows:
        print(f"| {program.name} | {program.version} | {' | '.join(map(str, figures))} |")
    print_odd(ours, others)
    print(f"\ninterop: {count} trees, {len(others)} programs, {differ} differences")
    sys.exit(differ > 0)


def parts_of_top(text):
    depth, parts = 0, 1
    for byte in text:
        depth += (byte == "(") - (byte == ")")
        parts += byte == "," and depth == 1
    return parts


if __name__ == "__main__":
    main()
