#!/bin/bash
# Measures a solver of DIMACS beside CaDiCaL on the clauses that `clauses_of` makes: blasted.sh PROGRAM FOLDER.
# The clauses are written into the folder by a program that is tried, not proved, in a scratch copy of the crates.
# Times are processor seconds of the user, the least of five runs, so that other work on the machine counts less.
set -e
program=$1
folder=$2
top=$(cd "$(dirname "$0")/.." && pwd)
copy=$(mktemp -d)
trap 'rm -rf "$copy"' EXIT
mkdir -p "$folder" "$copy/crates/blasted/src"
for crate in lv_bits lv_model lv_netlist lv_aig lv_clauses lv_gates lv_circuits lv_blast; do
    (cd "$top/crates" && tar -c --exclude=out "$crate") | tar -x -C "$copy/crates"
    grep "^$crate:" "$top/crates.txt"
done >"$copy/crates.txt"
echo 'blasted: lv_bits lv_model lv_netlist lv_aig lv_clauses lv_gates lv_circuits lv_blast sqlite_items' >>"$copy/crates.txt"

cat >"$copy/crates/blasted/src/main.rt" <<'END'
//! Clauses of goals, as DIMACS.
#![tactic(auto)]

mod core;
mod trim;
mod window;
mod wires;

use crate::trim::trim;
use crate::wires::{bin, open};
use lv_bits::{NoMemory, Op};
use lv_blast::clauses_of;
use lv_netlist::{Builder, Graph};
use std::alloc::Global;
use std::io;

// (a - b) + b isn't a.
fn subtraction(alloc: Global, width: u32) -> Result<(Graph, u64), NoMemory> {
    let mut b = Builder::new(alloc);
    let x = open(alloc, &mut b, width)?;
    let y = open(alloc, &mut b, width)?;
    let less = bin(&mut b, Op::Sub, x, y)?;
    let sum = bin(&mut b, Op::Add, less, y)?;
    let goal = bin(&mut b, Op::Ne, sum, x)?;
    Ok((b.finish(), goal))
}

// a * b isn't b * a.
fn commutes(alloc: Global, width: u32) -> Result<(Graph, u64), NoMemory> {
    let mut b = Builder::new(alloc);
    let x = open(alloc, &mut b, width)?;
    let y = open(alloc, &mut b, width)?;
    let one = bin(&mut b, Op::Mul, x, y)?;
    let other = bin(&mut b, Op::Mul, y, x)?;
    let goal = bin(&mut b, Op::Ne, one, other)?;
    Ok((b.finish(), goal))
}

fn graph_of(alloc: Global, name: &str) -> Result<(Graph, u64), NoMemory> {
    match name {
        "subtraction16" => subtraction(alloc, 16),
        "subtraction32" => subtraction(alloc, 32),
        "commutes6" => commutes(alloc, 6),
        _ => window::step(alloc),
    }
}

// Writes clauses so that few bytes are enough: the last literal as n or p with how far it is beyond that of the clause before.
fn write(rt: &HostRuntime, name: &str) -> io::Result<()> {
    let alloc = rt.alloc();
    let Ok((graph, goal)) = graph_of(alloc, name) else {
        return Ok(());
    };
    let Ok((graph, goal)) = trim(alloc, &graph, goal) else {
        return Ok(());
    };
    let Ok(encoded) = clauses_of(alloc, &graph, goal) else {
        return Ok(());
    };
    let set = encoded.set();
    println!(rt; "c file {name}")?;
    println!(rt; "c {} gates", encoded.gates())?;
    println!(rt; "p cnf {} {}", set.vars(), set.len())?;
    let mut before = 0u64;
    for id in 1..set.len() + 1 {
        let lits = set.clause(id).lits();
        for k in 0..lits.len() {
            let var = lits[k].var();
            if k + 1 == lits.len() && var >= before {
                let sign = if lits[k].neg() { "n" } else { "p" };
                print!(rt; "{sign}{}", var - before)?;
                before = var;
            } else {
                let sign = if lits[k].neg() { "-" } else { "" };
                print!(rt; "{sign}{var} ")?;
            }
        }
        println!(rt; "")?;
    }
    println!(rt; "c end")?;
    Ok(())
}

fn main(rt: HostRuntime) -> io::Result<()> {
    for name in ["subtraction16", "subtraction32", "commutes6", "window"] {
        write(&rt, name)?;
    }
    Ok(())
}
END

cat >"$copy/crates/blasted/src/wires.rt" <<'END'
use lv_bits::{NoMemory, Op, Text, Word};
use lv_netlist::{Builder, Node};
use std::alloc::Global;

/// An input whose name is its number.
pub(crate) fn open(alloc: Global, b: &mut Builder, width: u32) -> Result<u64, NoMemory> {
    let mut bytes: Vec<u8> = Vec::new(alloc);
    let mut rest = b.len();
    for _ in 0..8 {
        bytes.reserve(1)?;
        bytes.push_reserved((rest % 256) as u8);
        rest /= 256;
    }
    let name = Text::new(alloc, bytes.as_slice())?;
    b.input(name, width)
}

pub(crate) fn bin(b: &mut Builder, op: Op, x: u64, y: u64) -> Result<u64, NoMemory> {
    b.node(Node::Bin(op, x, y, false))
}

pub(crate) fn konst(b: &mut Builder, width: u32, value: u128) -> Result<u64, NoMemory> {
    b.node(Node::Const(Word::new(width, value)))
}

/// Whether the node has the value.
pub(crate) fn is(b: &mut Builder, x: u64, width: u32, value: u128) -> Result<u64, NoMemory> {
    let k = konst(b, width, value)?;
    bin(b, Op::Eq, x, k)
}

pub(crate) fn both(b: &mut Builder, x: u64, y: u64) -> Result<u64, NoMemory> {
    bin(b, Op::LogAnd, x, y)
}

pub(crate) fn either(b: &mut Builder, x: u64, y: u64) -> Result<u64, NoMemory> {
    bin(b, Op::LogOr, x, y)
}

pub(crate) fn negated(b: &mut Builder, x: u64) -> Result<u64, NoMemory> {
    b.node(Node::Un(Op::LogNot, x))
}

pub(crate) fn always(b: &mut Builder) -> Result<u64, NoMemory> {
    konst(b, 1, 1)
}

/// Whether the nodes of both lists are pairwise equal.
pub(crate) fn same(b: &mut Builder, xs: &[u64], ys: &[u64]) -> Result<u64, NoMemory> {
    let mut all = always(b)?;
    for k in 0..xs.len() {
        let one = bin(b, Op::Eq, xs[k], ys[k])?;
        all = both(b, all, one)?;
    }
    Ok(all)
}

/// The element that the index names.
pub(crate) fn element(alloc: Global, b: &mut Builder, list: &[u64], index: u64, bits: u32) -> Result<u64, NoMemory> {
    let mut level = Vec::from_slice(alloc, list)?;
    for k in 0..bits {
        let bit = b.node(Node::Slice(index, k, 1))?;
        let mut next = Vec::new(alloc);
        for j in 0..level.len() / 2 {
            let node = b.node(Node::Mux(bit, level[2 * j + 1], level[2 * j]))?;
            next.push(node)?;
        }
        level = next;
    }
    Ok(level[0])
}
END

cat >"$copy/crates/blasted/src/core.rt" <<'END'
//! A core of three stages (fetch, execute, write back) with 32 registers, 16 words of program and a part of RV32I: loads,
//! branches, register and immediate arithmetic. A state is a list of nodes.
use crate::wires::{bin, element, is, konst};
use lv_bits::{NoMemory, Op};
use lv_netlist::{Builder, Node};
use std::alloc::Global;

pub(crate) const IMEM: usize = 32;
pub(crate) const PC: usize = 48;
pub(crate) const F_V: usize = 49;
pub(crate) const F_PC: usize = 50;
pub(crate) const F_IR: usize = 51;
pub(crate) const W_V: usize = 52;
pub(crate) const W_PC: usize = 53;
pub(crate) const W_WE: usize = 54;
pub(crate) const W_RD: usize = 55;
pub(crate) const W_VAL: usize = 56;
pub(crate) const W_BR: usize = 57;
pub(crate) const W_TK: usize = 58;
pub(crate) const W_LD: usize = 59;
pub(crate) const W_AD: usize = 60;
pub(crate) const COUNT: usize = 61;

pub(crate) fn width(k: usize) -> u32 {
    match k {
        F_V | W_V | W_WE | W_BR | W_TK | W_LD => 1,
        W_RD => 5,
        _ => 32,
    }
}

// Which instruction is in the second stage: a branch, a load, with an immediate, with two registers.
fn kinds(alloc: Global, b: &mut Builder, s: &[u64]) -> Result<Vec<u64>, NoMemory> {
    let op = b.node(Node::Slice(s[F_IR], 0, 7))?;
    let mut kinds = Vec::new(alloc);
    for value in [99u128, 3, 19, 51] {
        let k = is(b, op, 7, value)?;
        let kind = bin(b, Op::And, s[F_V], k)?;
        kinds.push(kind)?;
    }
    Ok(kinds)
}

// The operand whose register stands at this bit, with what the last stage is about to write.
fn operand(alloc: Global, b: &mut Builder, s: &[u64], low: u32) -> Result<u64, NoMemory> {
    let r = b.node(Node::Slice(s[F_IR], low, 5))?;
    let none = is(b, r, 5, 0)?;
    let same = bin(b, Op::Eq, s[W_RD], r)?;
    let forward = bin(b, Op::And, s[W_WE], same)?;
    let read = element(alloc, b, &s[..32], r, 5)?;
    let rest = b.node(Node::Mux(forward, s[W_VAL], read))?;
    let zero = konst(b, 32, 0)?;
    b.node(Node::Mux(none, zero, rest))
}

fn branch_offset(b: &mut Builder, ir: u64) -> Result<u64, NoMemory> {
    let mut all = b.node(Node::Slice(ir, 31, 1))?;
    for (low, width) in [(7u32, 1u32), (25, 6), (8, 4)] {
        let part = b.node(Node::Slice(ir, low, width))?;
        all = b.node(Node::Cat(all, part))?;
    }
    let even = konst(b, 1, 0)?;
    let offset = b.node(Node::Cat(all, even))?;
    b.node(Node::Ext(offset, 32, true))
}

// What the second stage computes.
fn result(b: &mut Builder, ir: u64, is_op: u64, x: u64, y: u64) -> Result<u64, NoMemory> {
    let f3 = b.node(Node::Slice(ir, 12, 3))?;
    let f30 = b.node(Node::Slice(ir, 30, 1))?;
    let minus = bin(b, Op::And, is_op, f30)?;
    let sub = bin(b, Op::Sub, x, y)?;
    let add = bin(b, Op::Add, x, y)?;
    let sum = b.node(Node::Mux(minus, sub, add))?;
    let xor = bin(b, Op::Xor, x, y)?;
    let or = bin(b, Op::Or, x, y)?;
    let and = bin(b, Op::And, x, y)?;
    let mut r = konst(b, 32, 0)?;
    for (code, value) in [(7u128, and), (6, or), (4, xor), (0, sum)] {
        let here = is(b, f3, 3, code)?;
        r = b.node(Node::Mux(here, value, r))?;
    }
    Ok(r)
}

/// The state after a cycle.
pub(crate) fn next(alloc: Global, b: &mut Builder, s: &[u64], rdata: u64) -> Result<Vec<u64>, NoMemory> {
    let kinds = kinds(alloc, b, s)?;
    let (is_br, is_ld, is_im, is_op) = (kinds[0], kinds[1], kinds[2], kinds[3]);
    let x = operand(alloc, b, s, 15)?;
    let y = operand(alloc, b, s, 20)?;
    let imm_i = b.node(Node::Slice(s[F_IR], 20, 12))?;
    let imm = b.node(Node::Ext(imm_i, 32, true))?;
    let second = b.node(Node::Mux(is_im, imm, y))?;
    let same = bin(b, Op::Eq, x, y)?;
    let f12 = b.node(Node::Slice(s[F_IR], 12, 1))?;
    let differ = bin(b, Op::Xor, same, f12)?;
    let taken = bin(b, Op::And, is_br, differ)?;
    let address = bin(b, Op::Add, x, imm)?;
    let value = result(b, s[F_IR], is_op, x, second)?;
    let offset = branch_offset(b, s[F_IR])?;
    let target = bin(b, Op::Add, s[F_PC], offset)?;
    let four = konst(b, 32, 4)?;
    let after = bin(b, Op::Add, s[PC], four)?;
    let index = b.node(Node::Slice(s[PC], 2, 4))?;
    let writes = bin(b, Op::Or, is_ld, is_im)?;
    let mut next = Vec::new(alloc);
    for i in 0..32usize {
        let here = is(b, s[W_RD], 5, i as u128)?;
        let write = bin(b, Op::And, s[W_WE], here)?;
        let node = b.node(Node::Mux(write, s[W_VAL], s[i]))?;
        next.push(node)?;
    }
    for i in IMEM..PC {
        next.push(s[i])?;
    }
    next.push(b.node(Node::Mux(taken, target, after))?)?;
    next.push(b.node(Node::Un(Op::Not, taken))?)?;
    next.push(s[PC])?;
    next.push(element(alloc, b, &s[IMEM..PC], index, 4)?)?;
    next.push(s[F_V])?;
    next.push(s[F_PC])?;
    next.push(bin(b, Op::Or, writes, is_op)?)?;
    next.push(b.node(Node::Slice(s[F_IR], 7, 5))?)?;
    next.push(b.node(Node::Mux(is_ld, rdata, value))?)?;
    next.push(is_br)?;
    next.push(taken)?;
    next.push(is_ld)?;
    next.push(address)?;
    Ok(next)
}

/// What the contract shows of an instruction that retires: its place, whether it branches, and the address that it loads from.
pub(crate) fn shown(alloc: Global, b: &mut Builder, s: &[u64]) -> Result<Vec<u64>, NoMemory> {
    let zero = konst(b, 32, 0)?;
    let mut values = Vec::new(alloc);
    values.push(s[W_PC])?;
    values.push(bin(b, Op::And, s[W_BR], s[W_TK])?)?;
    values.push(b.node(Node::Mux(s[W_LD], s[W_AD], zero))?)?;
    Ok(values)
}
END

cat >"$copy/crates/blasted/src/window.rt" <<'END'
use crate::core::{COUNT, IMEM, W_AD, W_V, W_VAL, next, shown, width};
use crate::wires::{both, either, negated, open, same};
use lv_bits::{NoMemory, Op};
use lv_netlist::{Builder, Graph, Node};
use std::alloc::Global;

// Whether the register is equal in both copies at each moment, by what is to be shown.
fn is_kept(k: usize) -> bool {
    k >= IMEM && k != W_VAL && k != W_AD
}

fn kept(alloc: Global, s: &[u64]) -> Result<Vec<u64>, NoMemory> {
    let mut nodes = Vec::new(alloc);
    for k in 0..COUNT {
        if is_kept(k) {
            nodes.push(s[k])?;
        }
    }
    Ok(nodes)
}

fn open_state(alloc: Global, b: &mut Builder) -> Result<Vec<u64>, NoMemory> {
    let mut s = Vec::new(alloc);
    for k in 0..COUNT {
        s.push(open(alloc, b, width(k))?)?;
    }
    Ok(s)
}

// The right copy's first state: the left's nodes where they are equal.
fn shared(alloc: Global, left: &[u64], right: &[u64]) -> Result<Vec<u64>, NoMemory> {
    let mut s = Vec::new(alloc);
    for k in 0..COUNT {
        s.push(if is_kept(k) { left[k] } else { right[k] })?;
    }
    Ok(s)
}

struct Entry {
    on: u64,
    values: Vec<u64>,
}

impl Drop for Entry {
    fn drop(self) {
        let Entry { on: _, values } = self;
        drop(values);
    }
}

// The values by the number of the entry, of what two cycles show.
fn entries(alloc: Global, b: &mut Builder, first: &[u64], second: &[u64]) -> Result<(Entry, Entry), NoMemory> {
    let xs = shown(alloc, b, first)?;
    let ys = shown(alloc, b, second)?;
    let on = either(b, first[W_V], second[W_V])?;
    let two = both(b, first[W_V], second[W_V])?;
    let mut values = Vec::new(alloc);
    for k in 0..xs.len() {
        values.push(b.node(Node::Mux(first[W_V], xs[k], ys[k]))?)?;
    }
    Ok((Entry { on, values }, Entry { on: two, values: ys }))
}

// Whether one of both isn't there, or they are the same.
fn agree(b: &mut Builder, left: &Entry, right: &Entry) -> Result<u64, NoMemory> {
    let two = both(b, left.on, right.on)?;
    let apart = negated(b, two)?;
    let equal = same(b, left.values.as_slice(), right.values.as_slice())?;
    either(b, apart, equal)
}

/// Two copies of the core: they agree on what two cycles show where they were aligned, what is kept holds at first, and fails
/// after a cycle.
pub(crate) fn step(alloc: Global) -> Result<(Graph, u64), NoMemory> {
    let mut builder = Builder::new(alloc);
    let b = &mut builder;
    let left = open_state(alloc, b)?;
    let right = open_state(alloc, b)?;
    let data = open(alloc, b, 32)?;
    let aligned = open(alloc, b, 1)?;
    let first = shared(alloc, left.as_slice(), right.as_slice())?;
    let ls = next(alloc, b, left.as_slice(), data)?;
    let rs = next(alloc, b, first.as_slice(), data)?;
    let (l0, l1) = entries(alloc, b, left.as_slice(), ls.as_slice())?;
    let (r0, r1) = entries(alloc, b, first.as_slice(), rs.as_slice())?;
    let one = agree(b, &l0, &r0)?;
    let two = agree(b, &l1, &r1)?;
    let agreed = both(b, one, two)?;
    let all = both(b, agreed, aligned)?;
    let xs = kept(alloc, ls.as_slice())?;
    let ys = kept(alloc, rs.as_slice())?;
    let hold = same(b, xs.as_slice(), ys.as_slice())?;
    let equal = b.node(Node::Bin(Op::Eq, left[W_V], first[W_V], false))?;
    let after = both(b, hold, equal)?;
    let fail = negated(b, after)?;
    let goal = both(b, all, fail)?;
    Ok((builder.finish(), goal))
}
END

cat >"$copy/crates/blasted/src/trim.rt" <<'END'
use lv_bits::{NoMemory, Text};
use lv_netlist::{Builder, Graph, Node};
use std::alloc::Global;

// The node with its operands by the table.
fn moved(node: Node, table: &[u64]) -> Node {
    let at = |k: u64| table[k as usize];
    match node {
        Node::Un(op, a) => Node::Un(op, at(a)),
        Node::Bin(op, a, b, signed) => Node::Bin(op, at(a), at(b), signed),
        Node::Mux(c, a, b) => Node::Mux(at(c), at(a), at(b)),
        Node::Slice(a, low, width) => Node::Slice(at(a), low, width),
        Node::Cat(a, b) => Node::Cat(at(a), at(b)),
        Node::Ext(a, width, signed) => Node::Ext(at(a), width, signed),
        _ => node,
    }
}

// The nodes that the goal rests on.
fn needed(alloc: Global, graph: &Graph, goal: u64) -> Result<Vec<bool>, NoMemory> {
    let mut marks = vec![in alloc; false; graph.len() as usize]?;
    marks[goal as usize] = true;
    for j in 0..goal + 1 {
        let k = goal - j;
        if marks[k as usize] {
            match graph.node(k) {
                Node::Input(_) | Node::Reg(_) | Node::Const(_) => {}
                Node::Un(_, a) | Node::Slice(a, _, _) | Node::Ext(a, _, _) => marks[a as usize] = true,
                Node::Bin(_, a, b, _) | Node::Cat(a, b) => {
                    marks[a as usize] = true;
                    marks[b as usize] = true;
                }
                Node::Mux(c, a, b) => {
                    marks[c as usize] = true;
                    marks[a as usize] = true;
                    marks[b as usize] = true;
                }
            }
        }
    }
    Ok(marks)
}

/// A graph with the same inputs and only those nodes that the goal rests on, and its goal.
pub(crate) fn trim(alloc: Global, graph: &Graph, goal: u64) -> Result<(Graph, u64), NoMemory> {
    let marks = needed(alloc, graph, goal)?;
    let mut b = Builder::new(alloc);
    let mut table: Vec<u64> = Vec::new(alloc);
    for k in 0..graph.len() {
        let at = match graph.node(k) {
            Node::Input(i) => {
                let name = Text::new(alloc, graph.input_name(i).bytes())?;
                b.input(name, graph.width(k))?
            }
            node => if marks[k as usize] { b.node(moved(node, table.as_slice()))? } else { 0 },
        };
        table.reserve(1)?;
        table.push_reserved(at);
    }
    let goal = table[goal as usize];
    Ok((b.finish(), goal))
}
END

(cd "$copy/crates/blasted" && ${CHECK:-} rt try --seconds 300 >"$copy/clauses" 2>"$copy/errors" </dev/null) || { tail -n 20 "$copy/clauses" "$copy/errors"; exit 1; }
awk -v folder="$folder" '
    /^c file / { out = folder "/" $3 ".cnf"; next }
    /^c end/ { close(out); out = ""; next }
    out == "" || /^[cp] / { if (out != "") print > out; before = 0; next }
    {
        if ($NF ~ /^[np]/) { before += substr($NF, 2); $NF = ($NF ~ /^n/ ? "-" : "") before }
        print $0 " 0" > out
    }
' "$copy/clauses"

TIMEFORMAT=%U
# The least processor seconds of five runs of a command on a file, whose output goes to the file that is named first.
least() {
    local out=$1 input=$2
    shift 2
    for _turn in 1 2 3 4 5; do
        { time timeout 120 "$@" <"$input" >"$out" || true; } 2>&1
    done | sort -n | head -1
}

echo '| file | gates | variables | clauses | answer of both | lines | conflicts | seconds | CaDiCaL'"'"'s conflicts | seconds |'
echo '|---|---|---|---|---|---|---|---|---|---|'
for file in subtraction16 subtraction32 commutes6 window; do
    own=$(least "$copy/own" "$folder/$file.cnf" "$program")
    other=$(least "$copy/other" "$folder/$file.cnf" cadical)
    awk -v file="$file" -v own="$own" -v other="$other" '
        FILENAME ~ /cnf$/ { if (/^c .* gates/) gates = $2; if (/^p cnf/) { vars = $3; clauses = $4; nextfile } next }
        FILENAME ~ /own$/ { gsub(",", ""); answer = $1; lines = $2; conflicts = $4; next }
        /^s / { if (tolower($2) != answer) answer = answer ", CaDiCaL " $2 }
        /^c conflicts:/ { others = $3 }
        END { print "| " file " | " gates " | " vars " | " clauses " | " answer " | " lines " | " conflicts " | " own " | " others + 0 " | " other " |" }
    ' "$folder/$file.cnf" "$copy/own" "$copy/other"
done
