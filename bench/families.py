#!/usr/bin/env python3
"""Times `vtc type` on families of files that grow, and prints each time with its growth.

The growth is that of the processor's time in user mode, which is steadier than the time by the clock where
other programs run beside. A family ends at its first size with no answer.

    (cd crates/vtc && rt run)                       # proves and builds the program once
    python3 bench/families.py crates/vtc/out/vtc    # all families, or those that are named after it

Each family has a way to be slow: a path through every variant, a shared type walked as a tree, a scheme
that takes the whole program along. The answer is known, and is compared where it is short. No time is
asserted. A run is ended after 60 seconds, or after those that `--limit SECONDS` gives.
"""
import argparse
import math
import os
import random
import resource
import subprocess
import tempfile
import time


def identity(argument):
    return f"(fun x -> x) ({argument})"


def chain(k):
    """Each choice takes the result of the one before, as it is or through a function."""
    head = "".join(f"(fun x{i} -> " for i in range(1, k + 1))
    tail = "".join(f") @D{i}{{x{i - 1}, {identity(f'x{i - 1}')}}}" for i in range(k, 1, -1))
    return head + f"x{k}" + tail + ") 1", "Int"


def chain_of_functions(k):
    """The same with a polymorphic function at its beginning, each by a definition."""
    lines = ["def x1 = fun y -> y;"]
    lines += [f"def x{i} = @D{i}{{x{i - 1}, {identity(f'x{i - 1}')}}};" for i in range(2, k + 1)]
    return "\n".join([*lines, f"(x{k} 1, x{k} true)"]), "Int * Bool"


def chain_by_let(k):
    """The same, with `let`."""
    lines = ["let x1 = 1 in"]
    lines += [f"let x{i} = @D{i}{{x{i - 1}, {identity(f'x{i - 1}')}}} in" for i in range(2, k + 1)]
    return "\n".join([*lines, f"x{k}"]), "Int"


def nested(k):
    """Choices within choices, all on different dimensions, around one number."""
    text = "1"
    for i in range(k, 0, -1):
        text = f"@D{i}{{{text}, 2}}"
    return text, "Int"


def wide_list(n):
    """A list of choices on sixty dimensions, each between two numbers."""
    items = "; ".join(f"@D{i % 60}{{{i}, {i + 1}}}" for i in range(n))
    return f"[{items}]", "[Int]"


def long_definitions(n):
    """Many small definitions, about n bytes."""
    row = "[(1, 2 + 3 * 4); (5, 6)]"
    lines = max(1, n // (len(row) + 12))
    return "\n".join([*(f"def x{i} = {row};" for i in range(lines)), "1"]), "Int"


def long_plain(n):
    """One expression of about n bytes without definitions."""
    term = "(fun p -> fst p + snd p) (1, 2)"
    row = " + ".join([term] * 20)
    rows = max(1, n // (len(row) + 4))
    inner = [f"({row})" for _ in range(rows)]
    while len(inner) > 1:
        inner = [f"({' + '.join(inner[i:i + 8])})" for i in range(0, len(inner), 8)]
    return inner[0], "Int"


def functions(k):
    """Functions with one choice each, in one nest of pairs."""
    lines = ["def id = fun x -> x;"]
    lines += [f"def f{i} = fun x -> id @D{i}{{succ x, not x}};" for i in range(1, k + 1)]
    main = f"f{k}"
    for i in range(k - 1, 0, -1):
        main = f"(f{i}, {main})"
    return "\n".join([*lines, main]), None


def towers(k):
    """Two towers of doubled pairs, made equal: each type is as large as 2^k, but is shared."""
    head = "fun a0 -> fun b0 -> "
    for i in range(1, k + 1):
        head += f"(fun a{i} -> fun b{i} -> "
    body = f"(fun t -> 1) (a{k} = b{k})"
    tail = "".join(f") (a{i - 1}, a{i - 1}) (b{i - 1}, b{i - 1})" for i in range(k, 0, -1))
    return head + body + tail, "'a -> 'a -> Int"


def towers_by_let(k):
    """The same, with `let` under `fun`: the pairs have one type each, since they are of parameters."""
    lines = ["fun a0 -> fun b0 ->"]
    for i in range(1, k + 1):
        lines.append(f"let a{i} = (a{i - 1}, a{i - 1}) in let b{i} = (b{i - 1}, b{i - 1}) in")
    return "\n".join([*lines, f"(fun t -> 1) (a{k} = b{k})"]), "'a -> 'a -> Int"


def parity(k):
    """A number and a truth value that change places at every choice: each dimension turns the answer round."""
    head = "(fun x0 -> fun y0 -> " + "".join(f"(fun x{i} -> fun y{i} -> " for i in range(1, k + 1))
    swaps = [f") @D{i}{{x{i - 1}, y{i - 1}}} @D{i}{{y{i - 1}, x{i - 1}}}" for i in range(k, 0, -1)]
    return head + f"x{k}" + "".join(swaps) + ") 1 true", "type of - has more than 4096 nodes" if k > 11 else None


def mutual(k):
    """Pairs of parameters, made equal one way round on one side of a choice and the other on the other, and then numbers."""
    head = "".join(f"fun a{i} -> fun b{i} -> " for i in range(1, k + 1))
    body = "0"
    for i in range(1, k + 1):
        body = f"(@D{i}{{a{i} = b{i}, b{i} = a{i}}}, ((a{i} = 1, b{i} = 1), {body}))"
    return head + f"(fun t -> 0) {body}", " -> ".join(["Int"] * (2 * k + 1))


def crossed(k):
    """Pairs of parameters, each linked to the other on one side of a choice and to a number on the other."""
    head = "".join(f"fun a{i} -> fun b{i} -> " for i in range(1, k + 1))
    body = "0"
    for i in range(1, k + 1):
        both = f"@D{i}{{(a{i} = b{i}, b{i} = 1), (b{i} = a{i}, a{i} = 2)}}"
        body = f"({both}, (a{i} = 3, {body}))"
    return head + f"(fun t -> 0) {body}", " -> ".join(["Int"] * (2 * k + 1))


def ring(k):
    """Parameters in a ring, each equal to the next, said one way round on one side of a choice and the other on the other."""
    head = "".join(f"fun x{i} -> " for i in range(k))
    body = "x0 = 1"
    for i in range(k):
        one, other = f"x{i}", f"x{(i + 1) % k}"
        body = f"(@D{i}{{{one} = {other}, {other} = {one}}}, {body})"
    return head + f"(fun t -> 0) {body}", " -> ".join(["Int"] * (k + 1))


def web(k):
    """Eight parameters, of which each side of a choice makes some two equal, and which are all numbers."""
    pick = random.Random(k)
    lines = ["fun x0 -> fun x1 -> fun x2 -> fun x3 -> fun x4 -> fun x5 -> fun x6 -> fun x7 ->"]
    for i in range(k):
        a, b, c, d = (pick.randrange(8) for _ in range(4))
        lines.append(f"(fun t -> (fun s -> s)) @D{i}{{[x{a}] = [x{b}], x{c} = x{d}}} (")
    body = "x0 + x1 + x2 + x3 + x4 + x5 + x6 + x7"
    return "\n".join([*lines, body + ")" * k]), " -> ".join(["Int"] * 9)


def function_list(k):
    """A list of choices between two functions of one type."""
    items = "; ".join(f"@D{i}{{fun x -> x, fun y -> y}}" for i in range(k))
    return f"[{items}]", "['a -> 'a]"


def variables(n):
    """Pairs in pairs of n holes, each with a variable of its own."""
    parts = ["?"] * n
    while len(parts) > 1:
        parts = [f"({parts[i]}, {parts[i + 1]})" for i in range(0, len(parts), 2)]
    return parts[0], None


def lets_in_fun(k):
    """Functions under `let`, each of which uses the one before and the parameters round it."""
    head = "fun y0 -> let f0 = fun z -> (fun t -> z) (y0 = 1) in\n"
    lines = [f"fun y{i} -> let f{i} = fun z -> (fun t -> f{i - 1} z) (y{i} = y{i - 1}) in" for i in range(1, k + 1)]
    return head + "\n".join([*lines, f"f{k} true"]), " -> ".join(["Int"] * (k + 1) + ["Bool"])


def used_functions(k):
    """Functions with one choice each, each applied to a result of the one before."""
    lines = [f"def f{i} = fun x -> @D{i % 60}{{x, (fun y -> y) x}};" for i in range(k)]
    lines += ["def r0 = 1;", *(f"def r{i + 1} = f{i} r{i};" for i in range(k))]
    return "\n".join([*lines, f"r{k}"]), "Int"


def users(n):
    """Definitions that use the one before."""
    lines = ["def f0 = fun x -> x;"]
    lines += [f"def f{i} = fun x -> f{i - 1} (f{i - 1} x);" for i in range(1, n)]
    return "\n".join([*lines, f"f{n - 1} 1"]), "Int"


def users_of_two(n):
    """Definitions that use the two before."""
    lines = ["def f0 = fun x -> x;", "def f1 = fun x -> f0 x;"]
    lines += [f"def f{i} = fun x -> f{i - 1} (f{i - 2} x);" for i in range(2, n)]
    return "\n".join([*lines, f"f{n - 1} 1"]), "Int"


def callers(n):
    """Definitions that all use the first one."""
    lines = ["def f0 = fun x -> x;"]
    lines += [f"def f{i} = fun x -> f0 (f0 x);" for i in range(1, n)]
    return "\n".join([*lines, f"f{n - 1} 1"]), "Int"


def doubled(n):
    """Definitions that are pairs of the one before, up to a type that is too big."""
    lines = ["def x0 = 1;"]
    lines += [f"def x{i} = (x{i - 1}, x{i - 1});" for i in range(1, n + 1)]
    return "\n".join([*lines, "x0"]), "type of x12 has more than 4096 nodes" if n > 11 else "Int"


def definitions(n):
    """Definitions of one name, each a number."""
    return "\n".join([*["def x=1;"] * n, "x"]), "Int"


FAMILIES = {
    "chain": (chain, [8, 16, 32, 64]),
    "chain-by-let": (chain_by_let, [8, 16, 32, 64]),
    "chain-of-functions": (chain_of_functions, [8, 16, 32, 64]),
    "nested": (nested, [8, 16, 32, 60]),
    "parity": (parity, [4, 8, 12, 16]),
    "mutual": (mutual, [1, 2, 4, 8, 16]),
    "crossed": (crossed, [1, 2, 4, 8, 16]),
    "ring": (ring, [2, 4, 8, 16, 32, 64]),
    "web": (web, [2, 4, 6, 8, 10, 12]),
    "wide-list": (wide_list, [25, 50, 100, 200]),
    "function-list": (function_list, [4, 6, 8, 10, 12]),
    "long-plain": (long_plain, [25_000, 50_000, 100_000, 200_000]),
    "long-definitions": (long_definitions, [25_000, 50_000, 100_000, 200_000]),
    "variables": (variables, [256, 512, 1024, 2048]),
    "functions": (functions, [8, 16, 32, 64]),
    "used-functions": (used_functions, [15, 30, 60, 120]),
    "lets-in-fun": (lets_in_fun, [10, 20, 40, 80]),
    "towers": (towers, [6, 12, 24, 48]),
    "towers-by-let": (towers_by_let, [6, 12, 24, 48]),
    "users": (users, [250, 500, 1000, 2000]),
    "users-of-two": (users_of_two, [5, 10, 20, 40]),
    "callers": (callers, [250, 500, 1000, 2000]),
    "doubled": (doubled, [5, 8, 11, 14, 20, 40]),
    "definitions": (definitions, [2000, 4000, 8000, 16000]),
}


def run(program, text, limit):
    """The seconds by the clock and of the processor, and the first line of the answer or that there was none."""
    with tempfile.TemporaryDirectory() as room:
        file = os.path.join(room, "f")
        with open(file, "w", encoding="utf-8") as it:
            it.write(text)
        start, used = time.monotonic(), resource.getrusage(resource.RUSAGE_CHILDREN).ru_utime
        try:
            ran = subprocess.run([program, "type", file], capture_output=True, text=True, timeout=limit)
            answer = (ran.stdout.splitlines() or [f"status {ran.returncode}"])[0]
        except subprocess.TimeoutExpired:
            answer = None
        return time.monotonic() - start, resource.getrusage(resource.RUSAGE_CHILDREN).ru_utime - used, answer


def growth(sizes, times):
    """How many times as much, and the power of the size by which that grows."""
    if len(times) < 2 or not times[-2]:
        return ""
    ratio = times[-1] / times[-2]
    return f"{ratio:.1f} (^{math.log(max(ratio, 0.01)) / math.log(sizes[len(times) - 1] / sizes[len(times) - 2]):.1f})"


def main():
    words = argparse.ArgumentParser(description="Times `vtc type` on families of files that grow.")
    words.add_argument("program", type=os.path.abspath)
    words.add_argument("families", nargs="*", metavar="family", help=", ".join(FAMILIES) + "; with none, all")
    words.add_argument("--limit", type=float, default=60, metavar="SECONDS", help="for one run (60)")
    words = words.parse_args()
    print("| Family | Size | Bytes | User s | Wall s | Growth | Answer |\n|---|---|---|---|---|---|---|")
    for name in words.families or FAMILIES:
        family, sizes = FAMILIES[name]
        times = []
        for size in sizes:
            text, wanted = family(size)
            wall, user, answer = run(words.program, text, words.limit)
            times.append(user)
            if answer is None:
                print(f"| {name} | {size} | {len(text.encode())} | | over {words.limit:g} | | none |", flush=True)
                break
            shown = f"`{answer}`" if len(answer) < 40 else f"{len(answer)} characters"
            right = "" if wanted is None else ", right" if wanted == answer else f", wanted `{wanted[:40]}`"
            grown = growth(sizes, times)
            print(f"| {name} | {size} | {len(text.encode())} | {user:.3f} | {wall:.3f} | {grown} | {shown}{right} |", flush=True)


if __name__ == "__main__":
    main()
