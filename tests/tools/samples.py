"""Texts that the tests of the tools work on: a proof, the records of its function, and an output of the check."""


def path(depth, end):
    """A path from `c`, written out."""
    return "c" + " .before" * depth + end


USES = "use native.Mathlib.Omega.{arith}\nuse Rattle·box·proofs.proofs.put.Tie as tie\n\n"


def clause(name, term, args="c", unfolding=""):
    """A need and its answer."""
    return "%s : tie.Need-%s\n%s%s %s = %s\n\n" % (name, name, "unfolding %s\n" % unfolding if unfolding else "", name, args, term)


def proof(*clauses):
    """A proof file with these clauses."""
    return USES + "".join(clauses) + "pub put-spec : {M : Type 1} → statement M\nput-spec =\n    tie.close\n    (tie.spec returns)\n"


FAR = "made _ _ (%s) (%s) (%s)" % (path(9, " .pre .0"), path(4, " .find .ensures"), path(2, " .if1 .left"))
WITH_OMEGA = "made _ (omega arith) (%s) (%s)" % (path(31, " .pre .0"), path(12, " .find .ensures"))
ROUND = [
    clause("returns", FAR),
    clause("returns-2", WITH_OMEGA, unfolding="held leads"),
    clause("find-requires", "search needs", args="c κs"),
    clause("returns-3", "let p = %s in (p .0, law (%s) (%s))" % (path(29, " .pre"), path(7, ""), path(8, " .loop .inv .1"))),
    clause("loop-again", "(omega (arith, %s), λ z. %s (z .0), record {low = %s; high = %s})" % tuple(path(n, " .find .ensures") for n in (7, 8, 1, 20))),
    clause("short", path(6, " .pre")),
]

# The records of a function of two calls, a test between them and a loop after them, as the check generates them.
LTS = """
      pub record Args : Type 0 where
        pub t : Kinds.Den {n = 1} κs (Slices.sl Syntax.w32)
        pub e : Kinds.Den {n = 1} κs
          (Types.it 3)

      pub record Start : Type 0 where
        pub args : Args
        pub good : Kinds.GoodsP κs ps (dens args)
        pub pre : Pre· κs (dens args)

      abbrev pub Need-find-requires : Type 0
      Need-find-requires = (c : Start) → s0 .asks (m0 (c .args))

        abbrev pub After-find·own : Type 0
        After-find·own = Called.Called ps·0 r·0 (claims· .1) T0

      pub record After-find : Type 0 where
        pub before : Start
        pub find : After-find·own before

      pub record If1·own (b : After-find) : Type 0 where
        pub left : Tests.Left b

      pub record Else1 : Type 0 where
        pub before : After-find
        pub if1 : If1·own before

        abbrev pub After-find2·own : Type 0
        After-find2·own = Called.Called ps·0 r·0 (claims· .1) T1

      pub record After-find2 : Type 0 where
        pub before : Else1
        pub find2 : After-find2·own before

      abbrev pub Need-find-requires-2 : Type 0
      Need-find-requires-2 = (c : Else1) → s0 .asks (m1 (c .before))

      abbrev pub Need-returns : Type 0
      Need-returns =
        (c : After-find2) → Post· (c .before)

      body = Syntax.call "tables::find" (Syntax.call "tables::find" done)
"""

SKELETON = USES + """abbrev Inv-loop : tie.InvT-loop
Inv-loop t e i₀ i = ?

abbrev μ-loop : tie.MeasureT-loop
μ-loop t e i₀ i = ?

-- src/lib.rt:9:5
find-requires : tie.Need-find-requires Inv-loop μ-loop
find-requires c κs = ?

-- src/lib.rt:10:5
find-requires-2 : tie.Need-find-requires-2 Inv-loop μ-loop
find-requires-2 c κs = ?

-- src/lib.rt:11:5
returns : tie.Need-returns Inv-loop μ-loop
returns c = ?

pub put-spec : {M : Type 1} → statement M
put-spec = tie.close (tie.spec Inv-loop μ-loop find-requires find-requires-2 returns)
"""

CHECK = """rt: model proved (unchanged since it was last proved)
fn box::find: proved
note: crates/box/src/lib.rt:5:1: it is not proved that what the function ensures holds when it returns (`returns`)
fn box::put: no proof: expected put-spec in crates/box/proofs/put/Proof.antt; `search` does not close `returns`
help: write crates/box/proofs/put/Proof.antt with these lines
    use borrow.Author.Needs.{needs}

    returns : tie.Need-returns
    returns c = ?
crates/box/proofs/get/Proof.antt:8:13: goal ? in `returns`
    c : lts.After-find
    ⊢ Prim.Path._≡_ {A = ℕ} (c .before .before .find .result) (mathlib.Core.Nat.suc 0)
crates/box/proofs/has/Proof.antt:9:5: error: `loop-again`: `omega`: the goal does not follow from what it read
crates/box/proofs/has/Proof.antt:20:5: error: `has-spec`: `loop-again` was not admitted (it has holes or undetermined implicits, or was rejected)
fn box::has: not proved
crate box: modules loaded=3 checked=4
"""

CYCLE = """use borrow.Fn.Kinds.{In}

go-returns : (t : ℕ) → go-lts.Need-returns (used-reads.Asked, used-reads.Learnt, go-below t, go.Post) (go-at t) go.Post
go-returns t c = ?

go-requires : (t : ℕ) → go-lts.Need-requires (
    used-reads.Asked, used-reads.Learnt,
    go-below t, go.Post,
) (go-at t) go.Post
go-requires t c κs = ?
"""
