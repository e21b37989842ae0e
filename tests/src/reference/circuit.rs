//! A circuit as a list of wires, each with its place and where its value comes from.
use super::Counts;

/// What looking a wire up tells: its label (its share, 0 to d-1), its stage (its clock), and whether it is
/// registered, which is so where its source is a stop.
#[derive(Clone, Copy, Debug, PartialEq, Eq)]
pub struct Place {
    pub label: usize,
    pub stage: usize,
    pub registered: bool,
}

/// Where a wire's value comes from. The numbers are wires, except in the first three.
#[derive(Clone, Debug, PartialEq, Eq)]
pub enum Source {
    /// A byte of the list of shares.
    Share(usize),
    Constant(u8),
    /// A byte of the tape.
    Random(usize),
    Register(usize),
    Not(usize),
    /// All of them added modulo 2.
    Sum(Vec<usize>),
    Product(usize, usize),
    /// (not the first) times the second.
    NotProduct(usize, usize),
}

impl Source {
    /// True where a probe stops: an IN or CON wire, a random bit, or a register.
    pub fn is_stop(&self) -> bool {
        matches!(
            self,
            Source::Share(_) | Source::Constant(_) | Source::Random(_) | Source::Register(_)
        )
    }
}

/// `place` is None for an inner wire, which no frame may name.
#[derive(Clone, Debug)]
pub struct Wire {
    pub place: Option<Place>,
    pub source: Source,
}

/// What the frames walked so far have made.
#[derive(Clone, Debug)]
pub struct Circuit {
    /// Number of shares of each secret.
    pub d: usize,
    /// Number of IN frames.
    pub inputs: usize,
    pub randoms: usize,
    pub wires: Vec<Wire>,
    /// How many wires there were before each frame, HEAD first.
    pub starts: Vec<usize>,
    /// The words of each frame behind HEAD.
    pub frames: Vec<Vec<u16>>,
}

impl Circuit {
    pub fn new(d: usize) -> Circuit {
        Circuit { d, inputs: 0, randoms: 0, wires: Vec::new(), starts: vec![0], frames: Vec::new() }
    }

    pub fn counts(&self) -> Counts {
        Counts { wires: self.wires.len(), randoms: self.randoms, latency: self.latency() }
    }

    /// The clocks from the first input to the last output, over all frames; 0 without either, or
    /// where the output is not the later one.
    fn latency(&self) -> usize {
        let of_kind = |kind: u16| self.frames.iter().filter(move |words| words[0] == kind);
        let first_input = of_kind(1).map(|words| usize::from(words[1])).min();
        let last_output = of_kind(8).filter_map(|words| self.stage(words[1])).max();
        match (first_input, last_output) {
            (Some(from), Some(to)) if from < to => to - from,
            _ => 0,
        }
    }

    /// The stage of a wire that frames may name.
    fn stage(&self, wire: u16) -> Option<usize> {
        self.wires[usize::from(wire)].place.map(|place| place.stage)
    }
}

/// New wires of one frame, numbered on from the circuit's.
pub struct NewWires {
    first: usize,
    pub wires: Vec<Wire>,
}

impl NewWires {
    pub fn after(circuit: &Circuit) -> NewWires {
        NewWires { first: circuit.wires.len(), wires: Vec::new() }
    }

    fn push(&mut self, place: Option<Place>, source: Source) -> usize {
        self.wires.push(Wire { place, source });
        self.first + self.wires.len() - 1
    }

    /// Makes an inner wire and gives its number.
    pub fn inner(&mut self, source: Source) -> usize {
        self.push(None, source)
    }

    /// Makes a wire that later frames may name.
    pub fn open(&mut self, label: usize, stage: usize, source: Source) -> usize {
        self.push(Some(Place { label, stage, registered: source.is_stop() }), source)
    }
}
