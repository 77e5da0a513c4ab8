#!/usr/bin/env python3
"""Writes crates/tower_syntax/specs/Codes.antt: how the logic stores the trees of a system.

A type with a model needs a code of its value: a function into the logic's store, and a proof that it is
one to one. For a tree these are long and say nothing, so this file writes them from the constructors.

    python3 tools/codes.py > crates/tower_syntax/specs/Codes.antt
"""

# What stores the types that are not written here.
LEAVES = {
    "ℕ": "coded_ℕ",
    "ℤ": "coded_ℤ",
    "Name": "coded_list coded_ℕ",
    "Ty": "coded_ty",
    "Fields": "coded_list (coded× (coded_list coded_ℕ) coded_ty)",
    "Records": "coded_list (coded_list (coded× (coded_list coded_ℕ) coded_ty))",
    "Option ℕ": "coded_option coded_ℕ",
    "Scalar": "scalars.the_row.coded",
    "UnOp": "unaries.the_row.coded",
    "BinOp": "binaries.the_row.coded",
    "Root": "roots.the_row.coded",
    "SourceKind": "kinds.the_row.coded",
    "On": "ons.the_row.coded",
    "Listener": "listeners.the_row.coded",
}

# The trees that contain themselves, a group for each that are stored together.
TREES = [
    [
        (
            "Expr",
            [
                ("lit", ["Scalar", "ℤ"]),
                ("read", ["Place"]),
                ("un", ["UnOp", "Scalar", "Expr"]),
                ("bin", ["BinOp", "Scalar", "Expr", "Expr"]),
                ("choose", ["Expr", "Expr", "Expr"]),
                ("cast", ["Scalar", "Expr"]),
            ],
        ),
        ("Place", [("place", ["Root", "Steps"])]),
        ("Steps", [("no_steps", []), ("field", ["ℕ", "Steps"]), ("at", ["Expr", "Steps"])]),
    ],
    [
        (
            "Stmt",
            [
                ("bind", ["ℕ", "Expr"]),
                ("local", ["ℕ"]),
                ("set", ["Place", "Expr"]),
                ("copy", ["Place", "Place"]),
                ("branch", ["Expr", "Stmts", "Stmts"]),
                ("loop", ["ℕ", "ℕ", "Stmts"]),
                ("emit", ["ℕ", "Expr"]),
            ],
        ),
        ("Stmts", [("no_stmts", []), ("stmt", ["Stmt", "Stmts"])]),
    ],
]

# The records, each after those that it contains.
RECORDS = [
    ("Source", [("name", "Name"), ("kind", "SourceKind"), ("priority", "ℕ"), ("message", "Ty"), ("depth", "Option ℕ")]),
    ("Channel", [("name", "Name"), ("message", "Ty")]),
    ("Output", [("name", "Name"), ("channel", "ℕ")]),
    ("Monitor", [("name", "Name"), ("states", "Fields")]),
    ("Emitter", [("name", "Name"), ("channel", "ℕ"), ("bound", "ℕ")]),
    ("Body", [("param", "Name"), ("binders", "Fields"), ("stmts", "Stmts")]),
    ("Handler", [("name", "Name"), ("monitor", "ℕ"), ("on", "On"), ("emitters", "List Emitter"), ("callbacks", "List Body")]),
    (
        "Arch",
        [
            ("version", "ℕ"),
            ("name", "Name"),
            ("records", "Records"),
            ("record_names", "List Name"),
            ("sources", "List Source"),
            ("channels", "List Channel"),
            ("outputs", "List Output"),
            ("monitors", "List Monitor"),
            ("handlers", "List Handler"),
            ("listeners", "List Listener"),
        ],
    ),
]

HEAD = """-- The codes of a system's trees, by which a struct may have them in its model. Written by tools/codes.py.
use Rattle.std.proofs.Common.{◌≡◌, ◌≢◌, ℕ, List, Option, refl, ap, arith}
use Rattle.std.specs.Coded.{Coded, code_by, coded_ℕ, coded_ℤ, coded_list, coded_option, coded×}
use base.Stored.{Gv, gnil, gnum, gcons}
use Rattle.tower_types.specs.contracts.scalar.Scalar as scalars
use Rattle.tower_types.specs.contracts.scalar.UnOp as unaries
use Rattle.tower_types.specs.contracts.scalar.BinOp as binaries
use Rattle.tower_types.specs.Ty.{Ty, Name, Fields, Records}
use Rattle.tower_types.specs.Codes.{coded_ty}
use Rattle.tower_syntax.specs.contracts.body.Root as roots
use Rattle.tower_syntax.specs.contracts.arch.SourceKind as kinds
use Rattle.tower_syntax.specs.contracts.arch.On as ons
use Rattle.tower_syntax.specs.contracts.arch.Listener as listeners
use Rattle.tower_syntax.specs.declared.arch.SourceKind.{SourceKind}
use Rattle.tower_syntax.specs.declared.arch.On.{On}
use Rattle.tower_syntax.specs.declared.arch.Listener.{Listener}
use Rattle.tower_syntax.specs.Tree.{%s}
use Rattle.tower_syntax.specs.Arch.{%s}

abbrev head : Gv → Gv
head gnil = gnil
head (gnum n) = gnil
head (gcons a b) = a

abbrev tail : Gv → Gv
tail gnil = gnil
tail (gnum n) = gnil
tail (gcons a b) = b

-- the number of the constructor
abbrev tag : Gv → ℕ
tag gnil = 0
tag (gnum n) = n
tag (gcons gnil b) = 0
tag (gcons (gnum n) b) = n
tag (gcons (gcons a c) b) = 0

differ : (m n : ℕ) → m ≡ n → m ≢ n → ⊥
differ m n p other = other p
"""


def leaf(ty, done):
    """What stores a type that is stored already."""
    if ty.startswith("List "):
        return "coded_list %s" % argument(leaf(ty[5:], done))
    return "coded_" + ty.lower() if ty in done else LEAVES[ty]


def argument(term):
    return "(%s)" % term if " " in term else term


def pattern(con, args, letter):
    names = ["%s%d" % (letter, i) for i in range(len(args))]
    return con if not args else "(%s)" % " ".join([con] + names)


def code_of(tag, con, args, group, done):
    """The code of a constructor: its number, then the codes of its arguments."""
    parts = []
    for i, ty in enumerate(args):
        call = "code_" + ty.lower() if ty in group else argument(leaf(ty, done)) + ".code"
        parts.append("(%s a%d)" % (call, i))
    term = "gnum %d" % tag
    if parts:
        rest = parts[-1]
        for part in reversed(parts[:-1]):
            rest = "(gcons %s %s)" % (part, rest)
        term = "gcons (gnum %d) %s" % (tag, rest)
    return term


def equal(con, args, group, done):
    """Why two values of one constructor with one code are equal: their arguments are."""
    if not args:
        return "refl"
    proofs = []
    for i, ty in enumerate(args):
        path = "tail g"
        for _ in range(i):
            path = "tail (%s)" % path
        if i < len(args) - 1:
            path = "head (%s)" % path
        call = "inj_" + ty.lower() if ty in group else argument(leaf(ty, done)) + ".inj"
        proofs.append("(%s a%d b%d (ap (λ g. %s) p) i)" % (call, i, i, path))
    return "λ i. %s %s" % (con, " ".join(proofs))


def write_trees(types, done):
    group = [ty for ty, _ in types]
    lines = ["abbrev mutual"]
    for ty, cons in types:
        lines.append("  pub code_%s : %s → Gv" % (ty.lower(), ty))
        for tag, (con, args) in enumerate(cons):
            lines.append("  code_%s %s = %s" % (ty.lower(), pattern(con, args, "a"), code_of(tag, con, args, group, done)))
        lines.append("")
    lines.append("mutual")
    for ty, cons in types:
        inj = "inj_" + ty.lower()
        lines.append("  pub %s : (x y : %s) → code_%s x ≡ code_%s y → x ≡ y" % (inj, ty, ty.lower(), ty.lower()))
        for k, (con, args) in enumerate(cons):
            for l, (other, others) in enumerate(cons):
                proof = equal(con, args, group, done) if k == l else "absurd (differ %d %d (ap tag p) (omega arith))" % (k, l)
                lines.append("  %s %s %s p = %s" % (inj, pattern(con, args, "a"), pattern(other, others, "b"), proof))
        lines.append("")
    for ty in group:
        name = ty.lower()
        lines.append("abbrev pub coded_%s : Coded %s" % (name, ty))
        lines.append("coded_%s = record { code = code_%s; inj = inj_%s }" % (name, name, name))
        lines.append("")
    return lines


def nested(parts, join):
    rest = parts[-1]
    for part in reversed(parts[:-1]):
        rest = join(part, rest)
    return rest


def write_record(name, fields, done):
    types = nested([ty for _, ty in fields], lambda a, b: "%s × (%s)" % (a, b))
    codes = nested([leaf(ty, done) for _, ty in fields], lambda a, b: "coded× %s (%s)" % (argument(a), b))
    to = nested(["r.%s" % field for field, _ in fields], lambda a, b: "(%s, %s)" % (a, b))
    places = ["p" + ".1" * i + ("" if i == len(fields) - 1 else ".0") for i in range(len(fields))]
    back = "; ".join("%s = %s" % (field, place) for (field, _), place in zip(fields, places))
    return [
        "abbrev pub coded_%s : Coded %s" % (name.lower(), name),
        "coded_%s =" % name.lower(),
        "    code_by (%s) (%s)" % (types, codes),
        "    (λ r. %s)" % to,
        "    (λ p. record { %s })" % back,
        "    (λ _. refl)",
        "",
    ]


def main():
    trees = [word for group in TREES for ty, cons in group for word in [ty] + [con for con, _ in cons]]
    lines = [HEAD % (", ".join(trees), ", ".join(name for name, _ in RECORDS))]
    done = []
    for group in TREES:
        lines += write_trees(group, done)
        done += [ty for ty, _ in group]
    for name, fields in RECORDS:
        lines += write_record(name, fields, done)
        done.append(name)
    print("\n".join(lines).rstrip("\n"))


main()
