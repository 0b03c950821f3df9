#!/bin/sh
# Fills a pool with 1,300,000 different nodes, requests all of them once more, and runs netlists of 400 and of 1,000,000 nodes. Prints
# the seconds and the memory of each, and, where valgrind is installed, the machine instructions of a node, which don't depend on what else
# the computer does: sh benches/nodes.sh
#
# The checks of kp_test_circuits, with another main, are proved and built by `rt run` in a temporary folder.
set -eu
. "$(dirname "$0")/../checks/common.sh"
mkdir -p "$work/crates/kp_test_circuits/src" "$work/crates/kp_test_circuits/proofs" "$work/crates/kp_test_circuits/specs"
for name in kp_base kp_region kp_pipeline kp_bits kp_net kp_pool kp_net_gates kp_cycle_plan kp_cycle; do
    mkdir -p "$work/crates/$name/out"
    for part in src specs proofs out/rlib; do
        [ ! -d "$top/crates/$name/$part" ] || cp -r "$top/crates/$name/$part" "$work/crates/$name/$part"
    done
    grep "^$name:" "$top/crates.txt" >> "$work/crates.txt"
done
echo 'kp_test_circuits: kp_base kp_bits kp_net kp_pool kp_net_gates kp_cycle anyhow' >> "$work/crates.txt"
cp "$top/HANDLES" "$work/"
cp "$top/crates/kp_test_circuits/src/checks.rt" "$work/crates/kp_test_circuits/src/"
cp -r "$top/crates/kp_test_circuits/proofs/checks" "$work/crates/kp_test_circuits/proofs/"
cd "$work/crates/kp_test_circuits"
touch proofs/Lib.antt specs/Lib.antt
cat > src/main.rt <<'PROGRAM'
//! Fills a pool with nodes, or runs a chain of sums. Standard input has a word, `fill` or `run`, the number of nodes, and how many times they are
//! requested or how many cycles are run.
#![tactic(auto)]

ghost use Rattle.std.specs.Prelude.{IfOk, IsTrue, ◌<◌, length};
ghost use Rattle.kp_cycle.specs.Steps.{ShowsRows};

mod checks;

use anyhow::{Context, Result, bail};
use checks::runs;
use kp_base::List;
use kp_bits::{BinOp, Bits};
use kp_cycle::Sim;
use kp_net::{Kind, Label, NetReg, Netlist, Node, NodeId, Parts};
use kp_net_gates::{binary, bit, constant};
use kp_pool::Pool;
use std::alloc::Global;
use std::io;

fn main(rt: HostRuntime) -> Result<()> {
    let alloc = rt.alloc();
    let text = io::read_to_string(alloc, rt.reader())?;
    let words = text.split_whitespace().collect::<Vec<&str>>(alloc)?;
    let count = word(&words, 1)?;
    let times = word(&words, 2)?;
    match words.first().copied().unwrap_or("") {
        "fill" => println!(rt; "{} nodes", fill(alloc, count, times)?)?,
        "run" => println!(rt; "S = {}", run_chain(alloc, count, times)?)?,
        _ => {}
    }
    Ok(())
}

fn word(words: &[&str], i: usize) -> Result<u32> {
    Ok(words.get(i).copied().context("a word is missing")?.parse::<u32>()?)
}

fn empty(alloc: Global, room: u32) -> Result<Pool> {
    if room > 16777216 {
        bail!("too many nodes");
    }
    Ok(Pool::reserve(alloc, room)?)
}

// Requests so many nodes, so many times: half of them are numbers, and the others sums of a register and a number.
fn fill(alloc: Global, count: u32, times: u32) -> Result<usize> {
    let mut pool = empty(alloc, count)?;
    let reg = register(&mut pool)?;
    for _ in 0..times {
        turn(&mut pool, reg, (count / 2).saturating_sub(1))?;
    }
    Ok(pool.nodes().len())
}

fn turn(pool: &mut Pool, reg: NodeId, count: u32) -> Result<()> {
    for i in 0..count {
        let number = number(pool, 64, u64::from(i) + 1)?;
        sum(pool, reg, number)?;
    }
    Ok(())
}

// The register at index 0, of 64 bits.
fn register(pool: &mut Pool) -> Result<NodeId> {
    if pool.spare() < 1 {
        bail!("no room");
    }
    Ok(pool.node(Node {
        width: 64,
        kind: Kind::Reg(0),
    }))
}

fn number(pool: &mut Pool, width: u8, value: u64) -> Result<NodeId> {
    let word = Bits::new(width, value).context("no number")?;
    if pool.spare() < 1 {
        bail!("no room");
    }
    Ok(constant(pool, word.width(), word.value()))
}

// `a + b`
fn sum(pool: &mut Pool, a: NodeId, b: NodeId) -> Result<NodeId> {
    if pool.spare() < 1 || !is_there(pool, a) || !is_there(pool, b) {
        bail!("no room, or no node");
    }
    let width = pool.width(a);
    if pool.width(b) != width {
        bail!("other widths");
    }
    Ok(binary(pool, BinOp::Add, a, b, width))
}

fn is_there(pool: &Pool, a: NodeId) -> bool
    ensures { IsTrue result → a.0 < length pool.now.nodes }
{
    (a.0 as usize) < pool.nodes().len()
}

// The value of a register after these cycles; in each it takes a chain of sums.
fn run_chain(alloc: Global, count: u32, cycles: u32) -> Result<u64> {
    let net = chain_net(alloc, count)?;
    let mut sim = Sim::open(alloc, &net)?;
    for _ in 0..cycles {
        step(&mut sim)?;
    }
    if sim.netlist().parts().regs.as_slice().is_empty() {
        bail!("no register");
    }
    Ok(sim.value(0).value())
}

fn step(sim: &mut Sim<'_>) -> Result<()> {
    if !sim.netlist().parts().samples.as_slice().is_empty() {
        bail!("a sample is missing");
    }
    sim.step(0);
    Ok(())
}

fn chain_net(alloc: Global, count: u32) -> Result<Netlist>
    ensures { IfOk result (λ net. ShowsRows net) }
{
    let mut pool = empty(alloc, count)?;
    let parts = chain_parts(alloc, &mut pool, count)?;
    if runs(&pool, &parts) {
        return Ok(pool.close(parts));
    }
    bail!("the parts do not fit")
}

fn chain_parts(alloc: Global, pool: &mut Pool, count: u32) -> Result<Parts> {
    let sum = chain(pool, count)?;
    if pool.spare() < 2 {
        bail!("no room");
    }
    let on = bit(pool, true);
    let none = constant(pool, 4, 0);
    parts(alloc, sum, on, none)
}

fn chain(pool: &mut Pool, count: u32) -> Result<NodeId> {
    let reg = register(pool)?;
    let mut last = reg;
    for _ in 3..count {
        last = sum(pool, last, reg)?;
    }
    Ok(last)
}

fn parts(alloc: Global, sum: NodeId, on: NodeId, none: NodeId) -> Result<Parts> {
    let mut regs = Vec::new(alloc);
    regs.push(NetReg {
        name: Label::new(alloc, b"r_S")?,
        start: Bits::new(64, 1).context("no number")?,
        next: sum,
    })?;
    Ok(Parts {
        name: Label::new(alloc, b"m_S")?,
        ext: 1,
        reset: false,
        samples: List::new(Vec::new(alloc)),
        regs: List::new(regs),
        files: List::new(Vec::new(alloc)),
        full: on,
        ue: on,
        back: none,
    })
}
PROGRAM
echo 'fill 8 2' > stdin
echo '7 nodes' > stdout
rt run > "$work/log" 2>&1 < stdin || { tail -n 20 "$work/log"; exit 1; }
program=$(find out -maxdepth 1 -type f -perm -u+x | head -n 1)
for words in 'fill 1300000 1' 'fill 1300000 2' 'run 400 100000' 'run 1000000 1' 'run 1000000 101'; do
    echo "$words" > "$work/words"
    measured "$words" "./$program" < "$work/words"
done

# instructions WORDS: the machine instructions of a run
instructions() {
    echo "$1" > "$work/words"
    valgrind --tool=callgrind --callgrind-out-file=/dev/null "./$program" < "$work/words" 2>&1 > /dev/null | awk '/Collected/ { print $4 }'
}
if command -v valgrind > /dev/null; then
    echo "$(instructions 'run 400 1000')" "$(instructions 'run 400 3000')" |
        awk '{ printf "a sum of 64 bits in a cycle: %.1f machine instructions\n", ($2 - $1) / 2000 / 400 }'
    echo "$(instructions 'fill 100000 1')" "$(instructions 'fill 100000 2')" |
        awk '{ printf "a request of a new node: %d machine instructions, of one that is there: %d\n", $1 / 100000, ($2 - $1) / 100000 }'
fi
