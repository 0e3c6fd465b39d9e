//! Times of the verified store beside those of its twin, on the same lists, and
//! beside those of other stores.

mod case;
mod cases;
mod peers;
mod readings;
mod sides;
mod steps;
mod table;

use case::Times;
use cases::{deletes, kinds, recovered_again, recovery, transactions, waiting, Keeping};
use peers::Peer;
use sides::Side;
use std::path::Path;
use std::process::Command;
use std::time::Duration;
use table::Table;

/// Every case is measured in each of this many passes, for so long.
const PASSES: usize = 15;
const LONG: Duration = Duration::from_millis(12);

const WIDTHS: [usize; 3] = [8, 64, 512];
const KEEPING: [Keeping; 3] = [Keeping::Each, Keeping::Batches, Keeping::Recoveries];

fn tables() -> Vec<Table> {
    let width = |w: usize| format!("W = {w}");
    vec![
        Table::new("Each kind of step, L = 1024", &WIDTHS, width, kinds),
        Table::new("Recovery, L = 1024", &WIDTHS, width, |w| {
            let mut cases = vec![recovered_again(w, 1024)];
            cases.extend([0, 8, 128, 1024].map(|n| recovery(w, 1024, n)));
            cases
        }),
        Table::new("A pair transaction, L = 1024", &WIDTHS, width, |w| {
            KEEPING.map(|k| transactions(w, 1024, k)).into()
        }),
        Table::new(
            "Growth with L, W = 512",
            &[8, 128, 1024],
            |l| format!("L = {l}"),
            |l| {
                let [each, batches, recoveries] = KEEPING.map(|k| transactions(512, l, k));
                let empty = recovery(512, l, 0).called("recover, empty log");
                let full = recovery(512, l, l as u64).called("recover, full log");
                vec![each, batches, recoveries, deletes(l), empty, full]
            },
        ),
        Table::new(
            "Growth with the entries waiting, W = 512, L = 1024",
            &[(0, 0), (8, 0), (16, 0), (0, 32), (16, 32)],
            |(u, r)| format!("{u} undo+redo, {r} redo"),
            |(u, r)| waiting(u, r),
        ),
    ]
}

/// The times of the case of this name, of the first table that has it.
fn times_of(tables: &[Table], name: &str) -> Times {
    let case = tables.iter().find_map(|t| t.last(name));
    case.expect("the name of a row").times()
}

fn print_peers(tables: &[Table], peers: &[Peer]) {
    let [each, batches, recoveries] = KEEPING.map(|k| times_of(tables, k.name()));
    let cheaper = if each.rattle < batches.rattle {
        each
    } else {
        batches
    };
    let ours = cheaper.rattle;
    println!("\nA pair transaction beside other stores, W = 512, L = 1024");
    println!("{:36}|{:>7} {:>14}", "", "ns", "Rattle / this");
    peers::row("Rattle, write-backs and deletes", ours, ours);
    peers::row("Rattle, recover in batches", recoveries.rattle, ours);
    peers::row("twin, write-backs and deletes", cheaper.twin, ours);
    peers.iter().for_each(|p| p.print(ours));
}

/// Measures every case once, and prints the times of its lists.
fn pass() {
    for case in tables().iter_mut().flat_map(Table::cases) {
        let times = case.measure(LONG).map(|t| t.to_string());
        println!("{}", times.join(" "));
    }
}

/// Has every case measured by a process of its own, and takes note of what it
/// prints: where the system puts stack and heap can move a time by a third.
fn measure(tables: &mut [Table]) {
    let program = std::env::current_exe().expect("the path of this program");
    let output = Command::new(program).arg("pass").output();
    let output = output.expect("a pass runs");
    let errors = String::from_utf8_lossy(&output.stderr);
    assert!(output.status.success(), "{errors}");
    let text = String::from_utf8_lossy(&output.stdout);
    let cases = tables.iter_mut().flat_map(Table::cases);
    for (case, line) in cases.zip(text.lines()) {
        let times = line.split(' ').map(|t| t.parse().expect("a number"));
        let times: Vec<f64> = times.collect();
        case.note(times.try_into().expect("four numbers"));
    }
}

fn bench(folder: &Path) {
    let (mut tables, mut peers) = (tables(), peers::peers());
    for _ in 0..PASSES {
        measure(&mut tables);
        peers.iter_mut().for_each(|p| p.measure(folder));
    }
    tables.iter().for_each(Table::print);
    print_peers(&tables, &peers);
    readings::bench();
}

/// Runs one list of a case over and over, to be looked at by a profiler.
fn replay(side: &str, list: &str, name: &str, head: &str) {
    let side = match side {
        "twin" => Side::Twin,
        _ => Side::Rattle,
    };
    let tables = tables();
    let case = tables.iter().find_map(|t| t.case(name, head));
    let case = case.expect("the name of a row and the head of a column");
    case.replay(side, list == "whole", 20);
}

fn main() {
    let args: Vec<String> = std::env::args().skip(1).collect();
    let args: Vec<&str> = args.iter().map(String::as_str).collect();
    match args[..] {
        ["bench", folder] => bench(Path::new(folder)),
        ["pass"] => pass(),
        ["readings"] => readings::bench(),
        ["replay", side, list, name, head] => replay(side, list, name, head),
        _ => {
            eprintln!("usage: compare bench FOLDER-OF-THE-PEERS | pass | readings");
            eprintln!("       compare replay twin|rattle before|whole ROW COLUMN");
        }
    }
}
