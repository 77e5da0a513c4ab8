"""Files of at most 1,048,576 bytes: an ordinary one, those that are hardest for a stage of the check, and those whose
program is large, or hard to build."""

LIMIT = 1_048_576


def filled(front, pieces, back):
    """The front, as many of the pieces as fit, and the back."""
    parts, size = [front], len(front) + len(back)
    for piece in pieces:
        if size + len(piece) > LIMIT:
            break
        parts.append(piece)
        size += len(piece)
    parts.append(back)
    return "".join(parts)


# ---- an ordinary file, with comments and indentation, that is accepted

MONITOR = """
 ; ------------------------------------------------------------------------
 ; Keeps the last eight readings of unit {m}, and their sum as the mean needs it.
 ; A reading replaces the oldest one, so the mean is that of the last eight,
 ; or of fewer and zeros as long as there were not so many yet.
 ; ------------------------------------------------------------------------
 (monitor filter_unit_{m}
  (state readings (array 8 i32))   ; in tenths, oldest first
  (state position (ix 8))
  (state total i32)
  (handler reading_{m} sensor_{s}
   (emitter filtered smoothed_{c} 1)
   (callback reading
    (let scaled (cast i32 reading))
    (set (at readings position) scaled)          ; replaces the oldest
    (set position (+ position (ix 8 1)))
    (set total (i32 0))
    (for step 8
     (set total (+ total (at readings step))))
    (if (< total (i32 80000))
     (then (emit filtered (/ total (i32 8))))
     (else (emit filtered (i32 10000)))))))
"""


def ordinary():
    front = "; Sensors with a filter for each unit.\n(tower ordinary\n"
    front += "".join(f" (period sensor_{s} {10 + s} {100 + s})\n" for s in range(60))
    front += "".join(f" (channel smoothed_{c} i32)\n" for c in range(60))
    front += "".join(f" (output display_{c} smoothed_{c})\n" for c in range(60))
    return filled(front, (MONITOR.format(m=m, s=m % 60, c=m % 60) for m in range(1024)), ")\n")


# ---- the text

def endless(piece):
    while True:
        yield piece


def repeated(piece):
    return filled("", endless(piece), "")


def in_file(piece):
    return filled("(tower a ", endless(piece), ")")


# ---- names and types

def body(statements, states="", front=""):
    head = f"(tower a (signal s u8 1){front} (monitor m {states}(handler h s (callback v "
    return filled(head, statements, "))))")


def lets():
    return body(f"(let b{n} true)" for n in range(10**6))


def scopes():
    """Nests of loops, each of which binds and forgets a name."""
    nest = "".join(f"(for c{n} 2 " for n in range(200)) + ")" * 200
    return body(endless(nest))


def uses():
    names = "".join(f"(state n{n} u8)" for n in range(20_000))
    return body((f"(set n{n % 20_000} v)" for n in range(10**6)), names)


def fields():
    """A record of many fields, the last of which is used again and again."""
    record = "(record r " + "".join(f"(field f{n} u8)" for n in range(20_000)) + ")"
    return body(endless("(set (get x f19999) v)"), "(state x r)", record)


def copies():
    """Copies of a value whose type is nested deep."""
    ty = "(array 1 " * 240 + "u8" + ")" * 240
    return body(endless("(copy x x)"), f"(state x {ty})")


def steps():
    """Places that lead deep into a value."""
    ty = "(array 2 " * 22 + "u8" + ")" * 22
    place = "(at " * 22 + "x" + " (ix 2 1))" * 22
    return body(endless(f"(set {place} v)"), f"(state x {ty})")


def doubling():
    """Each record has two fields of the one before: words beyond all bounds."""
    def items():
        yield "(record r0 (field a u8))"
        for n in range(1, 10**6):
            yield f"(record r{n} (field a r{n - 1}) (field b r{n - 1}))"
    return filled("(tower a ", items(), ")")


def sums():
    """Expressions of the greatest height."""
    e = "v"
    for _ in range(11):
        e = f"(+ {e} {e})"
    return body(endless(f"(set x {e})"), "(state x u8)")


def emits():
    """Emits of a value whose type is nested deep."""
    ty = "(array 1 " * 240 + "u8" + ")" * 240
    head = f"(tower a (signal s u8 1)(channel c {ty})(monitor m (state x {ty})(handler h s (emitter e c 9)(callback v "
    return filled(head, endless("(emit e x)"), "))))")


# ---- the graph

def branches():
    """A handler with thousands of emitters, and as many branches."""
    head = "(tower a (signal s u8 1)(channel c u8)(monitor m (handler h s "
    head += "".join(f"(emitter e{n} c 1)" for n in range(18_000)) + "(callback v "
    return filled(head, (f"(if true (then (emit e{n % 18_000} v)) (else))" for n in range(10**6)), "))))")


def fans():
    """64 sources that reach everything: 4,096 handlers in layers, each of which leads to the whole next one."""
    items = "".join(f"(init s{n} 1)" for n in range(64)) + "(channel c0 u8)"
    items += "(monitor m0 " + "".join(f"(handler g{n} s{n} (emitter e c0 1) (callback v))" for n in range(64)) + ")"
    for layer in range(63):
        items += f"(channel c{layer + 1} u8)(monitor m{layer + 1} "
        items += "".join(f"(handler h{layer}x{n} c{layer} (emitter e c{layer + 1} 1) (callback v))" for n in range(64)) + ")"
    return f"(tower fans {items})"


def chain():
    """One handler after the other, 4,096 of them; each has many emitters on the next one's channel."""
    items = "".join(f"(init s{n} 1)" for n in range(64)) + "(monitor m "
    items += "".join(f"(handler g{n} s{n} (emitter e c0 1) (callback v))" for n in range(64)) + ")"
    items += "(monitor k "
    for n in range(4032):
        links = "".join(f"(emitter e{i} c{n + 1} 1)" for i in range(5))
        items += f"(handler h{n} c{n} {links} (callback v))"
    items += ")" + "".join(f"(channel c{n} u8)" for n in range(4033))
    return f"(tower chain {items})"


def ring():
    """One ring of 4,096 handlers, which 64 sources reach."""
    items = "".join(f"(channel c{n} u8)" for n in range(4033))
    items += "".join(f"(init s{n} 1)" for n in range(64)) + "(monitor m "
    items += "".join(f"(handler g{n} s{n} (emitter e c0 1) (callback v))" for n in range(64))
    items += "".join(f"(handler h{n} c{n} (emitter e c{(n + 1) % 4032} 1) (callback v))" for n in range(4032))
    return f"(tower ring {items}))"


def long_ring():
    """One ring of as many handlers as fit."""
    count = 14_000
    items = "".join(f"(channel c{n} u8)" for n in range(count)) + "(init s 1)(monitor m (handler g s (emitter e c0 1) (callback v))"
    items += "".join(f"(handler h{n} c{n} (emitter e c{(n + 1) % count} 1) (callback v))" for n in range(count))
    return f"(tower ring {items}))"


def sources():
    """As many sources as fit, each of which reaches a ring."""
    count = 14_000
    items = "(channel c u8)" + "".join(f"(init s{n} 1)" for n in range(count)) + "(monitor m (handler h c (emitter e c 1) (callback v))"
    items += "".join(f"(handler g{n} s{n} (emitter e c 1) (callback v))" for n in range(count))
    return f"(tower sources {items}))"


def rings():
    """Rings of two that no source reaches, and none that one does."""
    items = "".join(f"(channel c{n} u8)" for n in range(4096)) + "(init s 1)(monitor m "
    items += "".join(f"(handler h{n} c{n} (emitter e c{n ^ 1} 9) (callback v))" for n in range(4096))
    return f"(tower rings {items}))"


def crowd():
    """A channel with thousands of subscribers, and thousands of emitters on it."""
    items = "(init s 1)(channel c u8)(monitor m (handler g s (emitter e c 1) (callback v))"
    items += "".join(f"(handler h{n} c (callback v))" for n in range(2000)) + ")"
    front = f"(tower crowd {items}(monitor k "
    links = (f"(handler k{n} s " + "".join(f"(emitter e{i} c 1)" for i in range(20)) + "(callback v))" for n in range(2095))
    return filled(front, links, "))")


# ---- programs: accepted files with a code weight of 500,000 and more

def states():
    """A monitor of 20,000 states, the last of which are set again and again."""
    names = "".join(f"(state n{n} u8)" for n in range(20_000))
    return body((f"(set n{19_990 + n % 10} v)" for n in range(25_000)), names)


def last_fields():
    """A record of as many fields as it may have, the last of which are set again and again."""
    record = "(record r " + "".join(f"(field f{n} u8)" for n in range(4096)) + ")"
    return body((f"(set (get x f{4086 + n % 10}) v)" for n in range(41_000)), "(state x r)", record)


def half_a_million():
    """Eight tasks with half a million instructions: each of the literals and sums is one, and weighs 2."""
    e = "(u8 1)"
    for _ in range(11):
        e = f"(+ {e} {e})"
    items = "(channel c u8)(monitor m (state x u8)"
    items += f"(handler h c (callback v {f'(set x {e})' * 15})))"
    items += "".join(f"(signal s{n} u8 1)" for n in range(8)) + "(monitor k "
    items += "".join(f"(handler g{n} s{n} (emitter e c 1) (callback v (emit e v)))" for n in range(8)) + ")"
    return f"(tower half {items})"


def tasks():
    """64 tasks, each with the same 120 handlers, of a system with 4,096 handlers and channels."""
    items = "".join(f"(signal s{n} u8 1)" for n in range(64)) + "".join(f"(channel c{n} u8)" for n in range(4096))
    items += "(monitor m " + "".join(f"(handler g{n} s{n} (emitter e c0 1) (callback v))" for n in range(64)) + ")"
    items += "(monitor k " + "".join(f"(handler h{n} c{max(0, n - 119)} (callback v))" for n in range(4032)) + ")"
    return f"(tower tasks {items})"


PROGRAMS = {
    "ordinary": ordinary,
    "states": states,
    "last fields": last_fields,
    "half a million": half_a_million,
    "tasks": tasks,
}

FILES = {
    "ordinary": ordinary,
    "brackets": lambda: "(" * LIMIT,
    "one atom": lambda: "a" * LIMIT,
    "one comment": lambda: ";" * LIMIT,
    "digits": lambda: "(tower a (init s " + "9" * (LIMIT - 20) + "))",
    "blanks": lambda: " " * LIMIT,
    "nests": lambda: repeated("(" * 256 + ")" * 256),
    "empty lists": lambda: repeated("() "),
    "empty lists in a file": lambda: in_file("()"),
    "numbers at fault": lambda: in_file("(init s 256)"),
    "lets": lets,
    "scopes": scopes,
    "uses": uses,
    "fields": fields,
    "copies": copies,
    "steps": steps,
    "doubling": doubling,
    "sums": sums,
    "emits": emits,
    "branches": branches,
    "fans": fans,
    "chain": chain,
    "ring": ring,
    "long ring": long_ring,
    "sources": sources,
    "rings": rings,
    "crowd": crowd,
}
