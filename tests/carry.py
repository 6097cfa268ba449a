#!/usr/bin/env python3
"""tools/carry on small proofs in the form of an older Rattle, text alone: a proof is kept with its places by name and written again, after the code changed too. Nothing is
proved here, and nothing needs a kit."""
import contextlib
import io
import os
import pathlib
import runpy
import sys
import tempfile

CARRY = pathlib.Path(__file__).resolve().parent.parent / "tools" / "carry"
KEPT, PROOF = pathlib.Path("target/carry/x/f.at"), pathlib.Path("crates/x/proofs/f/Proof.antt")
GENERATED = pathlib.Path("target/gen/Rattle·x·proofs/proofs/f/Lts.antt")
HEAD = "use Rattle·x.specs.S.{law, index}\nuse Rattle·x·proofs.proofs.f.Tie as tie\n\n"
END = "\npub f-spec : {M : Type 1} → statement M\nf-spec = tie.close (tie.spec returns)\n"
failures = 0


def before(steps):
    return " .before" * steps


def generate(names, needs=("returns",)):
    """A function's places as the toolchain writes them: a record for each, every need after the last."""
    lines = ["      pub record Start : Type 0 where", "        pub κs : Lfts 1", "        pub args : Args κs", "        pub pre : Pre κs", ""]
    last = "Start"
    for i, name in enumerate(names):
        lines += [f"        pub record At{i}·own : Type 0 where", "          pub given : T", "", f"      pub record At{i} : Type 0 where"]
        lines += [f"        pub before : {last}", f"        pub {name} : At{i}·own before", ""]
        last = f"At{i}"
    for need in needs:
        lines += [f"      Need-{need} =", f"          (c : {last}) →", "          Post (c .before .args)", ""]
    GENERATED.write_text("\n".join(lines))


def carry(word):
    """What the tool tells."""
    sys.argv, told = [str(CARRY), word, "x", "f"], io.StringIO()
    with contextlib.redirect_stdout(told):
        runpy.run_path(str(CARRY), run_name="__main__")
    return told.getvalue()


def same(what, found, wanted):
    global failures
    if found != wanted:
        failures += 1
        print(f"tests/carry.py: {what}\n--- found\n{found}\n--- wanted\n{wanted}")


def returns(body, head=HEAD):
    return f"{head}returns : tie.Need-returns\nreturns c ={body}\n{END}"


def written(what, text, wanted, names=None):
    """Keeps a proof and writes it again, where names are the places by then; what is written stays so."""
    PROOF.write_text(text)
    carry("save")
    if names:
        generate(names)
    told = carry("load")
    same(what, PROOF.read_text(), wanted)
    carry("save")
    carry("load")
    same(f"{what}, once more", PROOF.read_text(), wanted)
    return told


def main():
    for file in KEPT, PROOF, GENERATED:
        file.parent.mkdir(parents=True)
    five = ["number", "index", "sum", "if1", "if2"]

    generate(five)
    near = returns(" law (c .before .if1 .taken) (c .before .before .sum .ensures) (c .if2 .left)")
    same("near places say nothing", written("near places stay where they are", near, near), "")
    far = f" let k : law (c{before(5)} .args .t) = law (c{before(5)} .pre) in law k (c{before(5)} .pre .1)"
    far = returns(f"{far}\n        (c{before(4)} .number .ensures) (c .before .if1 .taken)")
    let = f"""
    let entry = c{before(5)} in
    let number = c{before(4)} .number in
    let k : law (entry .args .t) = law (entry .pre) in
    law k (entry .pre .1)
        (number .ensures) (c .before .if1 .taken)"""
    same("far places say nothing", written("far places get a let", far, returns(let)), "")
    same("names", KEPT.read_text(), returns("\n    let k : law (@args .t) = law (@pre) in\n    law k (@pre .1)\n        (@number .ensures) (@if1 .taken)"))

    moved = f"""
    let entry = c{before(7)} in
    let number = c{before(6)} .number in
    let if1 = c{before(3)} .if1 in
    let k : law (entry .args .t) = law (entry .pre) in
    law k (entry .pre .1)
        (number .ensures) (if1 .taken)"""
    told = written("two more locals", returns(let), returns(moved), ["number", "index", "sum", "if1", "new", "new2", "if2"])
    same("two more locals", told, "")

    generate(five)
    gone = returns(f"\n    let entry = c{before(4)} in\n    law (entry .args .t) (@number .ensures)")
    told = written("a place is gone", returns(f" law (c{before(5)} .args .t) (c{before(4)} .number .ensures)"), gone, five[1:])
    same("a place is gone", told, "f: returns has no place number; it has if2 if1 sum index κs args pre entry\n")

    generate(five)
    PROOF.write_text(returns(" law c"))
    carry("save")
    generate(five, ["index-requires"])
    same("needs", carry("load"), "f: the need returns is gone\nf: the need index-requires is new\n")

    generate(five)
    same("no such path", carry("save"), "target/carry/x/f.at\n")
    PROOF.write_text(returns(" law (c .before .before .number .ensures)"))
    same("no such path", carry("save"), "f: returns: no place has the path c .before .before .number\ntarget/carry/x/f.at\n")

    hand = f" λ s. let start = c{before(5)} in let a = start .args in law s start (a .t) (start .pre)"
    kept = f"\n    let entry = c{before(5)} in\n    λ s. let a = entry .args in law s entry (a .t) (entry .pre)"
    written("lets by hand", returns(hand), returns(kept))
    alone = returns(f" let l = c{before(4)} .number in let a = c{before(5)} .args in law (l .ensures) (l .result) (a .t)")
    written("lets that alone cite a place", alone, alone)
    inner = f" λ s. let l = c{before(4)} .number in law s l"
    written("such a let further in", returns(inner), returns(f"\n    let number = c{before(4)} .number in\n    λ s. let l = number in law s l"))
    again = f" let number = c{before(4)} .number in law (λ number. number) (number .ensures) (c{before(4)} .number)"
    kept = f"\n    let at-number = c{before(4)} .number in\n    let number = at-number in\n    law (λ number. number) (number .ensures) (at-number)"
    written("a let whose name is bound again", returns(again), returns(kept))
    field = returns(f" let number = c{before(4)} .number in record {{ number = number .given; sum = number }}")
    written("a let with the name of a field", field, field)
    earlier = f" law (λ sum. sum) (let sum = c{before(3)} .index .given in sum)"
    kept = f"\n    let at-index = c{before(3)} .index in\n    law (λ sum. sum) (let sum = at-index .given in sum)"
    written("a let of a part", returns(earlier), returns(kept))
    earlier = f" law (λ start. start) (c{before(5)} .pre) (let start = c{before(5)} in start .args)"
    kept = f"\n    let entry = c{before(5)} in\n    law (λ start. start) (entry .pre) (let start = entry in start .args)"
    written("a let whose name was bound before", returns(earlier), returns(kept))
    whole = returns(f" let x = c{before(3)} in law x (x .index)")
    told = written("a let of all that holds at a place", whole, whole)
    same("a let of all that holds at a place", told, "")

    generate(["c", "search", "index", "number", "f-spec", "entry", "if1", "if1", "if2", "if3"])
    clash = f" law (c{before(9)} .c .given) (c{before(8)} .search .given) (c{before(7)} .index .given) (λ number. number (c{before(6)} .number .given))"
    clash += f" (c{before(5)} .f-spec .given) (c{before(4)} .entry .given) (c{before(10)} .pre) (c{before(3)} .if1 .left) (c .before .before .if1 .left)"
    apart = f"""
    let entry = c{before(10)} in
    let at-c = c{before(9)} .c in
    let at-search = c{before(8)} .search in
    let at-index = c{before(7)} .index in
    let at-number = c{before(6)} .number in
    let at-f-spec = c{before(5)} .f-spec in
    let at-entry = c{before(4)} .entry in
    law (at-c .given) (at-search .given) (at-index .given) (λ number. number (at-number .given))"""
    apart += f" (at-f-spec .given) (at-entry .given) (entry .pre) (c{before(3)} .if1 .left) (c .before .before .if1 .left)"
    written("names that are taken", returns(clash), returns(apart))

    generate(five, ["returns", "number-requires"])
    opened = f"{HEAD}-- a remark\nreturns : tie.Need-returns Inv\nunfolding law\nreturns c = law (c{before(5)} .pre)\n\n"
    opened += f"helper : ℕ → ℕ\nhelper c = c{before(5)} .pre\n\nother : tie.Need-returns\nother d = law (c{before(5)} .pre) d\n\n"
    opened += f"number-requires : tie.Need-number-requires\nnumber-requires c κs =\n  law κs (c{before(4)} .number)\n{END}"
    lets = opened.replace(f"returns c = law (c{before(5)} .pre)", f"returns c =\n    let entry = c{before(5)} in\n    law (entry .pre)")
    lets = lets.replace(f"  law κs (c{before(4)} .number)", f"  let number = c{before(4)} .number in\n  law κs (number)")
    written("unfolding, other definitions and more arguments", opened, lets)
    bracket = f" let a = c{before(5)} .args in (\n  a .t,\n  c{before(4)} .number .ensures,\n) (c{before(5)} .pre)"
    kept = f"\n    let entry = c{before(5)} in\n    let number = c{before(4)} .number in"
    kept += "\n    let a = entry .args in (\n  a .t,\n  number .ensures,\n) (entry .pre)"
    written("brackets that end and begin lines", returns(bracket), returns(kept))
    other = f"{HEAD}returns : tie.Need-returns\nreturns d = law (d{before(5)} .pre)\n"
    same("a need by another argument says nothing", written("a need by another argument stays", other, other, five), "")
    walked = f"use Rattle·x·proofs.proofs.f.Statement\n\nreturns : Need-returns\nreturns c = law (c{before(5)} .pre)\n"
    written("a proof by hand", walked, walked)


if __name__ == "__main__":
    with tempfile.TemporaryDirectory() as folder:
        os.chdir(folder)
        main()
    sys.exit(failures > 0)
