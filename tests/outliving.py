#!/usr/bin/env python3
"""What borrows from cells or from a base can't outlive them: outliving.py.

In a copy of the crates a library keeps a replica, the reply of a replica that is dropped, and tables over a base. The borrow checker must
accept it. Then one of the three at a time is kept past the cells, or the base, that it borrows from: the library must be refused at the line
that drops these, and nowhere else. Nothing is proved here. The last line is 'N passed, M failed'.
"""

import pathlib
import re
import shutil
import subprocess
import tempfile

from harness import repository
from harness.results import Results

NEEDED = ("lists", "mc_model", "model_lemmas", "mc_tables", "mc_items", "uc_cells", "mc_replica")
LIBRARY = """//! What borrows from cells, and from a base.
#![tactic(auto)]

use mc_items::tables::tables_over;
use mc_items::{Hashing, Items};
use mc_model::{Fault, Limits, Reply, Ticket, WorkerId};
use mc_replica::Replica;
use std::alloc::Global;
use uc_cells::{Cells, Seen};

fn replica_of<'a>(alloc: Global, worker: WorkerId, seen: Seen<'a>) -> Result<Replica<'a>, Fault> {
    let mut replica = Replica::open(alloc, Hashing::Fixed, worker, &[], 1)?;
    if replica.has_place() {
        replica.advance(seen)?;
    }
    Ok(replica)
}

fn reply_of<'a>(alloc: Global, worker: WorkerId, seen: Seen<'a>) -> Result<Option<Reply<'a>>, Fault> {
    let mut replica = Replica::open(alloc, Hashing::Fixed, worker, &[], 1)?;
    let reply = replica.replay(seen)?;
    drop(replica);
    Ok(reply)
}

pub fn replica(alloc: Global, worker: WorkerId) -> Result<usize, Fault> {
    let cells = Cells::open(alloc, 1, 1)?;
    let seen = cells.see(alloc, Ticket { worker, number: 0 })?;
    let replica = replica_of(alloc, worker, seen)?;
    // replica: drop(cells);
    Ok(replica.len())
}

pub fn reply(alloc: Global, worker: WorkerId) -> Result<bool, Fault> {
    let cells = Cells::open(alloc, 1, 1)?;
    let seen = cells.see(alloc, Ticket { worker, number: 0 })?;
    let reply = reply_of(alloc, worker, seen)?;
    // reply: drop(cells);
    Ok(reply.is_some())
}

pub fn tables(alloc: Global, limits: Limits) -> Result<usize, Fault> {
    let mut base = Vec::new(alloc);
    base.push(Items::new(alloc, limits, Hashing::Fixed))?;
    let tables = tables_over(alloc, &base)?;
    // tables: drop(base);
    Ok(tables.len())
}

#[cfg(test)]
mod tests;
"""
TESTS = """//! A test, so that the library is compiled.
#[test]
fn is_compiled(_rt: HostRuntime) {}
"""
results = Results()


def compiled(folder, library):
    """What trying the library prints."""
    (folder / "src/lib.rt").write_text(library)
    tried = subprocess.run(["rt", "try", "--test"], cwd=folder, stdout=subprocess.PIPE, stderr=subprocess.STDOUT, text=True)
    return tried.stdout


with tempfile.TemporaryDirectory() as name:
    top = pathlib.Path(name)
    for crate in NEEDED:
        for part in ("src", "specs", "proofs"):
            if (repository.ROOT / "crates" / crate / part).exists():
                shutil.copytree(repository.ROOT / "crates" / crate / part, top / "crates" / crate / part)
    lines = [line for line in (repository.ROOT / "crates.txt").read_text().splitlines() if line.split(":")[0] in NEEDED]
    (top / "crates.txt").write_text("\n".join(lines) + "\noutliving: mc_model mc_items uc_cells mc_replica\n")
    (top / "HANDLES").write_text((repository.ROOT / "HANDLES").read_text())
    folder = top / "crates/outliving"
    (folder / "src").mkdir(parents=True)
    (folder / "src/tests.rt").write_text(TESTS)
    text = compiled(folder, LIBRARY)
    results.check("what stays within its cells and its base is accepted", "1 passed; 0 failed" in text, text)
    for kept in ("replica", "reply", "tables"):
        mark = f"// {kept}: "
        place = LIBRARY[: LIBRARY.index(mark)].count("\n") + 1
        text = compiled(folder, LIBRARY.replace(mark, ""))
        errors = re.findall(r"^src/lib\.rt:(\d+):\d+: error\[([^\]]*)\]", text, re.M)
        results.check(f"{kept} kept past what they borrow from", errors == [(str(place), "borrow-e0505")], text)
results.finish()
