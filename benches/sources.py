#!/usr/bin/env python3
"""Writes large sources into a folder, and with --run PROGRAM times `PROGRAM check` on them.

    python3 sources.py FOLDER [--run PROGRAM] [--stack KIBIBYTES] [NAME ..]

Each source has one part very many times, and is written in two sizes, half and whole, so that it shows whether the time
grows with the source alone. With --run each is checked five times, and the shortest processor time counts; a line has
the source's name, its parts and bytes, the seconds and mebibytes of memory of half and whole, how much more time the
whole takes, and the answer. --stack gives the program so much of a stack."""
import os
import resource
import sys

MOST_BYTES = 1048576
ROUNDS = 5


def numbered(n, part):
    """The part n times, with the number of each in the place of #."""
    return [part.replace("#", str(i)) for i in range(n)]


def main_of(lines):
    return "int main(void){\n" + "\n".join(lines) + "\nreturn 0;}\n"


def functions(n):
    """Functions that each call the one before."""
    lines = ["int f0(){return 1;}"] + [f"int f{i}(){{return f{i - 1}();}}" for i in range(1, n)]
    return "\n".join(lines + [f"int main(void){{return f{n - 1}();}}", ""])


def calls(n):
    """Functions that are declared first, called in another order, and get their bodies last."""
    declared, bodies = numbered(n, "int f#();"), numbered(n, "int f#(){}")
    called = [f"f{i * 7919 % n}();" for i in range(n)]
    return "\n".join(declared) + "\n" + main_of(called) + "\n".join(bodies) + "\n"


def local_variables(n):
    """Variables of one function, a fifth of which are used."""
    used = [f"v{i * 7919 % n}=1;" for i in range(n // 5)]
    return main_of(["int " + ",\n".join(numbered(n, "v#")) + ";"] + used)


def members(n, uses):
    """Members of one structure, and so many uses of them."""
    used = [f"s.m{i * 7919 % n}=1;" for i in range(uses)]
    return "struct s{\nint " + ",\n".join(numbered(n, "m#")) + ";\n}s;\n" + main_of(used)


def few_uses(n):
    """Members of one structure, each of which is used once."""
    return members(n, n)


def many_uses(n):
    """Members of one structure, each of which is used five times."""
    return members(n, 5 * n)


def tags(n):
    """Structures with a tag each, which are used once more."""
    return "\n".join(numbered(n, "struct t#{int a;};") + numbered(n, "struct t# x#;")) + "\n" + main_of([])


def strings(n):
    """String literals, each an object of its own."""
    return main_of(['"abc";'] * n)


def joined_strings(n):
    """Neighbouring strings of one literal."""
    return "char a[]=" + '"abc"\n' * n + ";\n" + main_of([])


def items(n):
    """Items of one static initialiser."""
    return "int a[]={\n" + ",\n".join(str(i % 10) for i in range(n)) + "};\n" + main_of([])


def local_items(n):
    """Items of one automatic initialiser."""
    return main_of(["int a[]={\n" + ",\n".join(str(i % 10) for i in range(n)) + "};"])


def addresses(n):
    """Addresses in one static initialiser."""
    return "int x[9];int*a[]={\n" + ",\n".join(f"x+{i % 10}" for i in range(n)) + "};\n" + main_of([])


def string_items(n):
    """Strings in one static initialiser."""
    return "char*a[]={\n" + ",\n".join('"a"' for _ in range(n)) + "};\n" + main_of([])


def short_names(n):
    """Names of at most three letters, that are no words."""
    names, last = [], [""]
    while len(names) < n:
        last = [name + letter for name in last for letter in "abcdefghijklmnopqrstuvwxyzABCDEFGHIJKLMNOPQRSTUVWXYZ"]
        names += [name for name in last if name not in ("do", "if", "for", "int")]
    return names[:n]


def chain(n):
    """Structures that each hold the one before, and an assignment of the last."""
    names = short_names(n)
    lines = [f"struct {name}{{struct {before} a;}};" for before, name in zip(names, names[1:])]
    return "struct a{int a;};" + "".join(lines) + f"struct {names[-1]} x,y;" + main_of(["x=y;"])


def globals_(n):
    """Objects at file scope, all of which one function reads."""
    return "\n".join(numbered(n, "int g#;")) + "\n" + main_of(numbered(n, "g#;"))


def parameters(n):
    """Parameters of one function, and arguments of one call."""
    return "int f(\n" + ",\n".join(numbered(n, "int p#")) + "){}\n" + main_of(["f(\n" + ",\n".join("1" for _ in range(n)) + ");"])


def again(n):
    """Declarations of one function."""
    return "int f(int a);\n" * n + "int f(int a){}\n" + main_of([])


def blocks(n):
    """Blocks with a variable, which hides one of the function."""
    return main_of(["int x;"] + ["{int x;x=1;}"] * n)


def block_tags(n):
    """Blocks with a structure, whose tag hides another."""
    return main_of(["struct s{int a;};"] + ["{struct s{int b;}x;x.b=1;}"] * n)


def loops(n):
    """Loops with a variable of their own."""
    return main_of(["for(int i=0;i<1;i++);"] * n)


def statements(n):
    """Statements with arithmetic."""
    return main_of(["int a;int b;"] + ["a=(a+b*3-1)&7;"] * n)


def stars(n):
    """Uses of a pointer to a pointer, 250 deep."""
    return "int " + "*" * 250 + "p;\n" + main_of(["p;"] * n)


def library(n):
    """Calls of functions of the library."""
    return main_of(['puts("a");'] * n)


def sums(n):
    """Lengths of arrays that are sums of constants."""
    return "\n".join(numbered(n, "int a#[1+2*3+sizeof(int)];")) + "\n" + main_of([])


def returned(n):
    """Functions with an unused parameter and a loop."""
    return "\n".join(numbered(n, "int f#(int n){while(n)n=n-1;return n;}")) + "\n" + main_of([])


KINDS = {
    "functions": (functions, 30000),
    "calls": (calls, 25000),
    "locals": (local_variables, 100000),
    "members": (few_uses, 40000),
    "members-10000": (many_uses, 10000),
    "tags": (tags, 23000),
    "strings": (strings, 100000),
    "joined": (joined_strings, 150000),
    "items": (items, 300000),
    "local-items": (local_items, 100000),
    "addresses": (addresses, 150000),
    "string-items": (string_items, 120000),
    "chain": (chain, 40000),
    "globals": (globals_, 50000),
    "parameters": (parameters, 70000),
    "again": (again, 70000),
    "blocks": (blocks, 70000),
    "block-tags": (block_tags, 35000),
    "loops": (loops, 45000),
    "statements": (statements, 65000),
    "stars": (stars, 20000),
    "library": (library, 90000),
    "sums": (sums, 30000),
    "returned": (returned, 23000),
}


def checked(program, file, stack):
    """The processor seconds and mebibytes of one check, its answer and its status."""
    out, into = os.pipe()
    child = os.fork()
    if child == 0:
        os.dup2(into, 1)
        os.dup2(into, 2)
        os.close(out)
        if stack:
            resource.setrlimit(resource.RLIMIT_STACK, (stack * 1024, stack * 1024))
        os.execv(program, [program, "check", file])
    os.close(into)
    answer = b""
    while piece := os.read(out, 4096):
        answer += piece
    os.close(out)
    _, status, used = os.wait4(child, 0)
    return used.ru_utime + used.ru_stime, used.ru_maxrss / 1024, answer.decode().strip(), status


def best(program, file, stack):
    """The shortest of some checks; one check where it takes long."""
    runs = [checked(program, file, stack)]
    while len(runs) < ROUNDS and runs[0][0] < 5:
        runs.append(checked(program, file, stack))
    return min(runs)


def write(folder, name):
    """Writes the half and the whole of a source, and gives their files, parts and bytes."""
    made, whole = KINDS[name]
    files = []
    for label, count in (("half", whole // 2), ("whole", whole)):
        text = made(count)
        assert len(text) <= MOST_BYTES, (name, len(text))
        file = f"{folder}/{name}-{label}.c"
        with open(file, "w") as out:
            out.write(text)
        files.append((file, count, len(text)))
    return files


def main(words):
    folder, program, stack, names = words[0], None, 0, []
    words = words[1:]
    while words:
        word = words.pop(0)
        if word == "--run":
            program = os.path.abspath(words.pop(0))
        elif word == "--stack":
            stack = int(words.pop(0))
        else:
            names.append(word)
    os.makedirs(folder, exist_ok=True)
    for name in names or KINDS:
        (half, _, _), (whole, count, size) = write(folder, name)
        line = f"{name}: {count} parts, {size} bytes"
        if program:
            short, long = best(program, half, stack), best(program, whole, stack)
            told = long[2].replace(whole, os.path.basename(whole))
            line += f"; {short[0]:.2f} s {short[1]:.0f} MiB, {long[0]:.2f} s {long[1]:.0f} MiB, {long[0] / short[0]:.1f} times; {told or long[3]}"
        print(line, flush=True)


if __name__ == "__main__":
    main(sys.argv[1:])
