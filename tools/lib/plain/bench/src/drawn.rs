//! Drawn lattices and graphs.
use plain_std::alloc::Global;
use sg_base::{Numbers, Records};
use sg_graph::{Edge, Edges, Terminals, Web};
use sg_lattice::{Kind, bond_count, build};
use sg_laws::{Alternate, Disorder, One, PlusMinus, Uniform};
use sg_model::Instance;

/// Numbers that are drawn (SplitMix64).
pub struct Splitter(u64);

impl Splitter {
    pub fn new(seed: u64) -> Splitter {
        Splitter(seed)
    }

    pub fn word(&mut self) -> u64 {
        self.0 = self.0.wrapping_add(0x9E37_79B9_7F4A_7C15);
        let mut word = self.0;
        word = (word ^ (word >> 30)).wrapping_mul(0xBF58_476D_1CE4_E5B9);
        word = (word ^ (word >> 27)).wrapping_mul(0x94D0_49BB_1331_11EB);
        word ^ (word >> 31)
    }

    pub fn part(&mut self) -> f64 {
        (self.word() >> 11) as f64 / (1u64 << 53) as f64
    }
}

// The law of a name, and for a number M what its draws are taken modulo, for -M..M.
fn law(name: &str) -> (Box<dyn Disorder>, Option<i64>) {
    match name {
        "pm" => (Box::new(PlusMinus::new()), None),
        "one" => (Box::new(One::new()), None),
        "alternate" => (Box::new(Alternate::new()), None),
        "uniform" => (Box::new(Uniform::new()), None),
        _ => (
            Box::new(Uniform::new()),
            Some(name.parse().expect("a law or a number")),
        ),
    }
}

fn kind(shape: &str) -> Kind {
    match shape {
        "square" => Kind::Square,
        "triangular" => Kind::Triangular,
        "hexagonal" => Kind::Hexagonal,
        "cylinder" => Kind::Cylinder,
        _ => panic!("a shape: square, triangular, hexagonal or cylinder"),
    }
}

/// A lattice of this side, with the draws of a law from the seed 1.
pub fn lattice(shape: &str, side: u32, name: &str) -> Instance {
    let kind = kind(shape);
    let (mut law, most) = law(name);
    law.seed(1);
    let mut couplings = Numbers::new(Global);
    for _ in 0..bond_count(kind, side, side) {
        let draw = law.draw();
        let coupling = most.map_or(draw, |most| (draw + 1_048_576) % (2 * most + 1) - most);
        couplings.push(coupling).expect("memory");
    }
    build(Global, kind, side, side, couplings).expect("memory")
}

fn list<T: Copy>(items: impl Iterator<Item = T>) -> Numbers<T> {
    let mut found = Numbers::new(Global);
    items.for_each(|item| found.push(item).expect("memory"));
    found
}

fn web(nodes: u32, edges: impl Iterator<Item = (u32, u32, i64)>) -> Web {
    let mut found: Edges = Records::new(Global);
    edges.for_each(|(a, b, w)| found.push(Edge { a, b, w }).expect("memory"));
    Web::new(nodes, found)
}

/// A square grid of about so many nodes, its weights drawn below 2^20.
pub fn grid(nodes: u32) -> Web {
    let side = nodes.isqrt();
    let mut splitter = Splitter::new(1);
    let mut edges = Vec::new();
    for node in 0..side * side {
        if node % side + 1 < side {
            edges.push((node, node + 1, (splitter.word() % (1 << 20)) as i64));
        }
        if node + side < side * side {
            edges.push((node, node + side, (splitter.word() % (1 << 20)) as i64));
        }
    }
    web(side * side, edges.into_iter())
}

/// A square grid that is closed in both directions, with weights 1.
pub fn torus(side: u32) -> Web {
    let at = move |row: u32, col: u32| row % side * side + col % side;
    let places = (0..side).flat_map(move |row| (0..side).map(move |col| (row, col)));
    let east = places
        .clone()
        .map(move |(r, c)| (at(r, c), at(r, c + 1), 1));
    let south = places.map(move |(r, c)| (at(r, c), at(r + 1, c), 1));
    web(side * side, east.chain(south))
}

/// An even number of nodes, about this part of all.
pub fn some_terminals(nodes: u32, fraction: f64) -> Terminals {
    let mut splitter = Splitter::new(2);
    let mut found: Vec<u32> = (0..nodes).filter(|_| splitter.part() < fraction).collect();
    found.truncate(found.len() / 2 * 2);
    list(found.into_iter())
}

/// The nodes at which an odd number of edges meet, of edges that are drawn with this probability.
pub fn odd_ends(web: &Web, rate: f64, splitter: &mut Splitter) -> Terminals {
    let mut odd = vec![false; web.nodes() as usize];
    for edge in web.edges().as_slice() {
        if splitter.part() < rate {
            odd[edge.a as usize] ^= true;
            odd[edge.b as usize] ^= true;
        }
    }
    list((0..web.nodes()).filter(|node| odd[*node as usize]))
}
