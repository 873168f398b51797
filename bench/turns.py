#!/usr/bin/env python3
"""Turns a second of a turn lock: turns.py [TURNS], shared by 1, 2 and 4 passes, and an eighth of
them by 64, each pass on a thread of its own.

A scratch repository takes the crates from here and a program that only measures; it is proved and built as the
program of this repository is, which takes some minutes. The toolchain stops a program after 120 seconds: on a busy
machine take fewer turns.
"""
import os
import shutil
import subprocess
import sys
import tempfile

TOP = os.path.dirname(os.path.dirname(os.path.abspath(__file__)))

START = """//! Passes sign a roll, each on a thread of its own, and the turns are timed.
#![tactic(auto)]

ghost use Rattle.std.specs.Prelude.{◌≡◌, ◌≤◌, ◌^◌, All, map};
ghost use Rattle.std.specs.Thread.{IsSync};
ghost use Rattle.turn_lock.specs.Passes.{badge, Belongs};

use fca_model::Memory;
use std::alloc::Global;
use std::io;
use std::sync::Wait;
use std::thread::{Threads, join_mut};
use std::time::Instant;
use turn_lock::{Logged, Pass, TurnLock};

/// Who signed, each with the number of signatures before.
#[derive(Drop)]
struct Roll {
    signed: Vec<(u8, usize)>,
}

impl Logged for Roll {
    type Event = u8;

    type Reply = usize;

    type Entry = (u8, usize);

    type Seen = usize;

    type Base = ();

    ghost use Rattle.std.proofs.Common.{refl};
    ghost use Rattle.std.specs.Prelude.{◌≡◌, length};

    ghost base = { λ _. tt };

    ghost history = { λ s. s.signed.items };

    ghost legal = { λ _ _. Unit {0} };

    ghost shows = { λ _ h n. n ≡ length h };

    ghost admits = { λ _ _. Unit {0} };

    ghost entry = { λ by place. (by, place) };

    ghost number = { λ by. by };

    ghost by = { λ e. e.0 };

    ghost by_entry = { λ _ _. refl };

    ghost prefix = { λ _ _ _ _. tt };

    fn apply(&mut self, event: u8) -> Result<usize, Memory> {
        let place = self.signed.len();
        self.signed.push((event, place))?;
        Ok(place)
    }

    fn seen(&self) -> usize {
        self.signed.len()
    }

    fn told(&self) {
        let _signed = &self.signed;
    }
}

/// Signs again and again.
fn sign<R: Wait>(rt: &R, lock: &TurnLock<Roll>, pass: &mut Pass<Roll>, turns: u64)
    requires { Belongs lock.now pass.old }
    ensures { badge pass.new ≡ badge pass.old }
{
    let by = pass.number();
    for _ in 0..turns {
        let _reply = lock.with_turn(rt, pass, by);
    }
}

fn sign_1<R: Threads + Wait + Sync>(
    rt: &R,
    lock: &TurnLock<Roll>,
    passes: &mut [Pass<Roll>],
    turns: u64,
)
    requires { All (Belongs lock.now) passes.old }
    ensures { map badge passes.new ≡ map badge passes.old }
{
    if passes.len() == 1 {
        sign(rt, lock, &mut passes[0], turns);
    }
}

"""

FORK = """fn sign_ALL<R: Threads + Wait + Sync>(
    rt: &R,
    lock: &TurnLock<Roll>,
    passes: &mut [Pass<Roll>],
    turns: u64,
)
    requires { All (Belongs lock.now) passes.old }
    ensures { map badge passes.new ≡ map badge passes.old }
{
    let (front, back) = passes.split_at_mut(passes.len() / 2);
    join_mut(
        rt,
        &mut ||
            requires { IsSync R.row × All (Belongs lock.now) front.now }
            ensures { map badge front.exit.now ≡ map badge front.entry.now }
        { sign_HALF(rt, lock, front, turns) },
        &mut ||
            requires { IsSync R.row × All (Belongs lock.now) back.now }
            ensures { map badge back.exit.now ≡ map badge back.entry.now }
        { sign_HALF(rt, lock, back, turns) },
    );
}

"""

SIGNED = """fn signed_ALL<R: Threads + Wait + Sync>(rt: &R, alloc: Global, turns: u64) -> Result<Roll, Memory> {
    let roll = Roll {
        signed: Vec::new(alloc),
    };
    let (lock, mut passes) = TurnLock::new(alloc, roll, ALL, 1_000_000_000_000)?;
    sign_ALL(rt, &lock, passes.as_mut_slice(), turns / ALL);
    Ok(lock.close(passes))
}

"""

TIMED = """    let begin = Instant::now(&rt)?;
    if let Ok(roll) = signed_ALL(&rt, rt.alloc(), TURNS) {
        println!(rt; "ALL {} {}", roll.signed.len(), begin.elapsed(&rt)?.as_micros())?;
    }
"""

MEASURE = """use Rattle.std.proofs.Common.{◌≡◌}
use Rattle.turn_lock.specs.Passes.{badge}
use Rattle.turns.proofs.sign.Given as goal

abbrev pub invariant-loop : goal.invariant-loop
invariant-loop g l = badge l.pass ≡ badge l.initial.pass
"""


def program(turns):
    """The program that times so many turns of 1, 2 and 4 passes, and an eighth of them of 64."""
    text = START
    for count in (2, 4, 8, 16, 32, 64):
        text += FORK.replace("ALL", str(count)).replace("HALF", str(count // 2))
    timed = ((1, turns), (2, turns), (4, turns), (64, turns // 8))
    text += "".join(SIGNED.replace("ALL", str(count)) for count, _ in timed)
    text += "fn main(rt: HostRuntime) -> io::Result<()> {\n"
    text += "".join(TIMED.replace("ALL", str(count)).replace("TURNS", str(most)) for count, most in timed)
    return text + "    Ok(())\n}\n"


def write(path, text):
    os.makedirs(os.path.dirname(path), exist_ok=True)
    with open(path, "w") as out:
        out.write(text)


def main():
    turns = int(sys.argv[1]) if len(sys.argv) > 1 else 100000
    top = tempfile.mkdtemp(prefix="turns-")
    try:
        for name in ("fca_model", "turn_lock"):
            shutil.copytree(os.path.join(TOP, "crates", name), os.path.join(top, "crates", name))
        folder = os.path.join(top, "crates", "turns")
        write(os.path.join(folder, "src", "main.rt"), program(turns))
        write(os.path.join(folder, "proofs", "sign", "Invariants.antt"), MEASURE)
        shutil.copy(os.path.join(TOP, "HANDLES"), top)
        with open(os.path.join(TOP, "crates.txt")) as kept, open(os.path.join(top, "crates.txt"), "w") as out:
            out.writelines(line for line in kept if line.split(":")[0].split()[:1] in (["fca_model"], ["turn_lock"]))
            out.write("turns: fca_model turn_lock\n")
        ran = subprocess.run(["rt", "run"], cwd=folder, stdout=subprocess.PIPE, stderr=subprocess.STDOUT, text=True)
        print("%8s %10s %14s %14s" % ("threads", "turns", "turns / second", "nanoseconds each"))
        found = False
        for line in ran.stdout.splitlines():
            words = line.split()
            if len(words) == 3 and all(word.isdigit() for word in words):
                passes, made, micros = map(int, words)
                print("%8d %10d %14d %14d" % (passes, made, made * 1000000 // max(micros, 1), micros * 1000 // max(made, 1)))
                found = True
        if not found:
            sys.exit(ran.stdout)
    finally:
        shutil.rmtree(top)


main()
