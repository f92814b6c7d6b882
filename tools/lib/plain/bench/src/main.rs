//! Times of whole calls, in CPU seconds, and a sum of each answer to compare. Without words it prints what it can do.
mod drawn;
mod meter;

use drawn::{Splitter, grid, lattice, odd_ends, some_terminals, torus};
use meter::{Meter, Sum};
use plain_std::alloc::Global;
use sg_dual::dual;
use sg_graph::Web;
use sg_ground::{nested_state, proves_by_nest, solve};
use sg_planar::Planar;
use sg_regions::{Proposer, Regions};
use sg_tjoin::{Joiner, least_weight};
use std::str::FromStr;

const USAGE: &str = "bench COMMAND [RUNS]
  ground SHAPE L LAW     nested_state of an L x L lattice, and its parts; SHAPE: square, triangular, hexagonal, cylinder
  solve SHAPE L LAW      solve, with loops
  clusters L LAW         clusters of a square lattice
  chosen L LAW COUNT     costs of COUNT bonds of a square lattice, spread over all
  bounds L LAW ROUNDS    bounds of all costs of a square lattice
  joins grid N FRACTION  least_weight on a square grid of N nodes, this part of them terminals; Joiner on the same
  joins toric D P SHOTS  Joiner on a toric code, errors of probability P
LAW: pm, uniform, one, alternate, or a number M for -M..M";

fn stop() -> ! {
    eprintln!("{USAGE}");
    std::process::exit(2)
}

fn said<T: FromStr>(words: &[String], place: usize) -> T {
    match words.get(place).and_then(|word| word.parse().ok()) {
        Some(value) => value,
        None => stop(),
    }
}

fn runs_of(words: &[String], place: usize) -> usize {
    words
        .get(place)
        .and_then(|word| word.parse().ok())
        .unwrap_or(1)
}

fn planar(shape: &str, side: u32, law: &str) -> Planar {
    Planar::test(Global, lattice(shape, side, law)).expect("a lattice")
}

fn ground(shape: &str, side: u32, law: &str) {
    let mut meter = Meter::new();
    let instance = lattice(shape, side, law);
    meter.part("draw and build");
    let planar = Planar::test(Global, instance).expect("a lattice");
    meter.part("faces, components");
    let state = nested_state(Global, &planar, u64::MAX).expect("a state");
    meter.part("nested_state");
    let nest = state.nest.as_ref().expect("a nest");
    let proved = proves_by_nest(Global, &planar, state.energy, &state.spins, nest).expect("memory");
    meter.part("judge it again");
    parts_of(&planar, &mut meter);
    let sum = Sum::of(state.spins.as_slice().iter().map(|spin| *spin as u64));
    println!(
        "energy {} regions {} proved {proved} sum {sum}",
        state.energy,
        nest.regions.len()
    );
}

// The parts of `nested_state`, one by one.
fn parts_of(planar: &Planar, meter: &mut Meter) {
    let (web, terminals) = dual(Global, planar.instance(), planar.faces()).expect("a dual");
    meter.part("  dual");
    let proposed = Regions::new()
        .propose(Global, &web, &terminals)
        .expect("memory");
    meter.part("  regions");
    let found: sg_regions::NestProposal = proposed.expect("a proposal");
    let yes = sg_nest::proves(Global, &web, &terminals, &found.edges, &found.nest).expect("memory");
    meter.part("  judge");
    println!("terminals {} accepted {yes}", terminals.len());
}

fn solve_all(shape: &str, side: u32, law: &str) {
    let planar = planar(shape, side, law);
    let mut meter = Meter::new();
    let answer = solve(Global, &planar).expect("memory");
    meter.part("solve");
    println!("energy {} loops {}", answer.energy, answer.loops.len());
}

fn clusters(side: u32, law: &str) {
    let planar = planar("square", side, law);
    let mut meter = Meter::new();
    let found = sg_bonds::clusters(Global, &planar).expect("memory");
    meter.part("clusters");
    println!(
        "sum {}",
        Sum::of(found.as_slice().iter().map(|name| u64::from(*name)))
    );
}

fn chosen(side: u32, law: &str, count: usize) {
    let planar = planar("square", side, law);
    let bonds = planar.instance().bonds().len();
    let asked: Vec<u32> = (0..count).map(|i| (i * bonds / count) as u32).collect();
    let mut bounds = vec![sg_bonds::Bound { low: -1, high: -1 }; bonds];
    let mut meter = Meter::new();
    sg_bonds::costs_of(Global, &planar, &asked, &mut bounds, u64::MAX).expect("costs");
    meter.part("costs_of");
    println!(
        "sum {}",
        Sum::of(asked.iter().map(|bond| bounds[*bond as usize].low as u64))
    );
}

fn bounds(side: u32, law: &str, rounds: u32) {
    let planar = planar("square", side, law);
    let mut bounds = vec![sg_bonds::Bound { low: -1, high: -1 }; planar.instance().bonds().len()];
    let mut meter = Meter::new();
    sg_bonds::bond_bounds(Global, &planar, &mut bounds, rounds, u64::MAX).expect("bounds");
    meter.part("bond_bounds");
    let (low, high) = bounds
        .iter()
        .fold((0, 0), |(low, high), it| (low + it.low, high + it.high));
    println!("sum of lower bounds {low}, of upper bounds {high}");
}

fn joins_grid(nodes: u32, fraction: f64) {
    let web: Web = grid(nodes);
    let terminals = some_terminals(web.nodes(), fraction);
    let mut meter = Meter::new();
    let join = least_weight(Global, &web, &terminals).expect("memory");
    meter.part("least_weight");
    let mut joiner = Joiner::new(&web);
    for name in ["Joiner, first", "Joiner, again"] {
        joiner
            .least_weight_within(Global, &terminals, u64::MAX)
            .expect("a join");
        meter.part(name);
    }
    println!(
        "terminals {} weight {} proved {}",
        terminals.len(),
        join.weight,
        join.nest.is_some()
    );
}

fn joins_toric(side: u32, rate: f64, shots: u32) {
    let web = torus(side);
    let mut splitter = Splitter::new(1);
    let lists: Vec<_> = (0..shots)
        .map(|_| odd_ends(&web, rate, &mut splitter))
        .collect();
    let mut joiner = Joiner::new(&web);
    let mut weights = Vec::new();
    let mut meter = Meter::new();
    for list in &lists {
        let join = joiner
            .least_weight_within(Global, list, u64::MAX)
            .expect("a join");
        weights.push(join.weight as u64);
    }
    meter.share("one list", shots);
    println!(
        "weight {} sum {}",
        weights.iter().sum::<u64>(),
        Sum::of(weights.into_iter())
    );
}

fn run(words: &[String]) {
    let word = |place: usize| said::<String>(words, place);
    match word(0).as_str() {
        "ground" => ground(&word(1), said(words, 2), &word(3)),
        "solve" => solve_all(&word(1), said(words, 2), &word(3)),
        "clusters" => clusters(said(words, 1), &word(2)),
        "chosen" => chosen(said(words, 1), &word(2), said(words, 3)),
        "bounds" => bounds(said(words, 1), &word(2), said(words, 3)),
        "joins" if word(1) == "grid" => joins_grid(said(words, 2), said(words, 3)),
        "joins" if word(1) == "toric" => {
            joins_toric(said(words, 2), said(words, 3), said(words, 4))
        }
        _ => stop(),
    }
}

fn main() {
    let words: Vec<String> = std::env::args().skip(1).collect();
    let place = match said::<String>(&words, 0).as_str() {
        "clusters" => 3,
        "joins" if said::<String>(&words, 1) == "toric" => 5,
        _ => 4,
    };
    for _ in 0..runs_of(&words, place) {
        run(&words);
    }
    meter::memory();
}
