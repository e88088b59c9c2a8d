"""Checks tools/proof_paths.py on a small function's places, without the prover.

    python3 tests/check_tools.py
"""

import sys
from pathlib import Path

sys.dont_write_bytecode = True
sys.path.insert(0, str(Path(__file__).resolve().parent.parent / "tools"))
from proof_paths import Places, turned  # noqa: E402

PLACES = """
      pub record Start : Type 0 where
        pub args : Args
        pub pre : Pre
      pub record At-loop : Type 0 where
        pub before : Start
        pub loop : At-loop·own before
      Need-loop-holds = (c : Start) → Inv
      pub record Then1 : Type 0 where
        pub before : At-loop
        pub if1 : Then1·own before
      pub record After-put : Type 0 where
        pub before : Then1
        pub put : After-put·own before
      pub record After-put2 : Type 0 where
        pub before : After-put
        pub put : After-put2·own before
      Need-loop-again =
          (c : After-put2) →
          Inv
"""

# a proof as it is written, and by names
PATHS = """loop-holds : tie.Need-loop-holds
loop-holds c = f (c .pre) (c .args .x)

lemma : (c : tie.Then1 a b) → P (c .before .loop .inv)
lemma c = g (c .if1 .taken) (c .before) (circus .before)

loop-again : tie.Need-loop-again Inv μ
loop-again c = let s = c .before .before .before in h (c .put .ensures) (c .before .put .ensures) (c .before .before .if1 .taken) (s .loop .inv) (c .before .before .before .before .pre)
"""
NAMES = """loop-holds : tie.Need-loop-holds
loop-holds c = f (@pre) (@args .x)

lemma : (c : tie.Then1 a b) → P (@loop .inv)
lemma c = g (@if1 .taken) (@@At-loop) (circus .before)

loop-again : tie.Need-loop-again Inv μ
loop-again c = let s = @@At-loop in h (@put .ensures) (@put#2 .ensures) (@if1 .taken) (s .loop .inv) (@pre)
"""
# the same code with a step more before the branch: names stay, paths do not
MOVED = PLACES.replace("        pub before : At-loop\n        pub if1", "        pub before : After-new\n        pub if1").replace(
    "      pub record Then1", "      pub record After-new : Type 0 where\n        pub before : At-loop\n        pub new : After-new·own before\n      pub record Then1")


def main():
    places, moved = Places(PLACES), Places(MOVED)
    tried = [
        ("paths become names", turned(PATHS, places, "names"), (NAMES, [])),
        ("names become paths", turned(NAMES, places, "paths"), (PATHS, [])),
        ("what is by name already stays", turned(NAMES, places, "names"), (NAMES, [])),
        ("names survive a step more", turned(turned(NAMES, moved, "paths")[0], moved, "names"), (NAMES, [])),
        ("a path is longer by the step", "(c .before .before .before .before .before .pre)" in turned(NAMES, moved, "paths")[0], True),
        ("an unknown name is left and said", turned("loop-holds : n\nloop-holds c = @gone\n", places, "paths"),
         ("loop-holds : n\nloop-holds c = @gone\n", ["loop-holds: @gone"])),
    ]
    wrong = [name for name, found, expected in tried if found != expected]
    for name in wrong:
        print("FAILED  tools/proof_paths.py: " + name)
    if not wrong:
        print("ok      tools/proof_paths.py: %d checks" % len(tried))
    sys.exit(1 if wrong else 0)


if __name__ == "__main__":
    main()
