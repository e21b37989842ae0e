//! Writes frames into a table and keeps the numbers of the wires they make.

/// A wire's label, its stage, and whether it is registered: made by an IN, a CON or a REG, or an
/// output of a REF.
#[derive(Clone, Copy)]
pub struct Place {
    pub label: usize,
    pub stage: usize,
    pub registered: bool,
}

#[derive(Clone)]
pub struct Builder {
    pub d: usize,
    pub table: Vec<u16>,
    /// Where in the table each frame begins; HEAD is the first.
    pub frames: Vec<usize>,
    /// The place of each wire made so far; None for an inner one.
    pub places: Vec<Option<Place>>,
    pub inputs: usize,
    pub randoms: usize,
}

impl Builder {
    pub fn new(d: usize) -> Builder {
        Builder {
            d,
            table: vec![0, d as u16],
            frames: vec![0],
            places: Vec::new(),
            inputs: 0,
            randoms: 0,
        }
    }

    pub fn wires(&self) -> usize {
        self.places.len()
    }

    /// The place of a wire that frames may name.
    pub fn place(&self, wire: u16) -> Place {
        self.places[usize::from(wire)].expect("frames name no inner wire")
    }

    fn frame(&mut self, words: &[u16]) {
        self.frames.push(self.table.len());
        self.table.extend(words);
    }

    fn open(&mut self, label: usize, stage: usize, registered: bool) -> u16 {
        self.places.push(Some(Place { label, stage, registered }));
        (self.places.len() - 1) as u16
    }

    fn open_row(&mut self, stage: usize, registered: bool) -> Vec<u16> {
        (0..self.d).map(|label| self.open(label, stage, registered)).collect()
    }

    fn inner(&mut self, count: usize) {
        self.places.extend(vec![None; count]);
    }

    pub fn input(&mut self, stage: usize) -> Vec<u16> {
        self.frame(&[1, stage as u16]);
        self.inputs += 1;
        self.open_row(stage, true)
    }

    pub fn constant(&mut self, label: usize, value: u16, stage: usize) -> u16 {
        self.frame(&[2, label as u16, value, stage as u16]);
        self.open(label, stage, true)
    }

    /// The result has the first wire's label, also where the second has another.
    pub fn xor(&mut self, x: u16, y: u16) -> u16 {
        self.frame(&[3, x, y]);
        let Place { label, stage, .. } = self.place(x);
        self.open(label, stage, false)
    }

    pub fn not(&mut self, x: u16) -> u16 {
        self.frame(&[4, x]);
        let Place { label, stage, .. } = self.place(x);
        self.open(label, stage, false)
    }

    pub fn register(&mut self, x: u16) -> u16 {
        self.frame(&[5, x]);
        let Place { label, stage, .. } = self.place(x);
        self.open(label, stage + 1, true)
    }

    /// A run of CONs: a value for each label.
    pub fn constants(&mut self, values: &[u8], stage: usize) -> Vec<u16> {
        let labels = values.iter().enumerate();
        labels.map(|(label, &value)| self.constant(label, value.into(), stage)).collect()
    }

    /// A run of XORs over two rows.
    pub fn xors(&mut self, x: &[u16], y: &[u16]) -> Vec<u16> {
        x.iter().zip(y).map(|(&x, &y)| self.xor(x, y)).collect()
    }

    /// A run of NOTs.
    pub fn nots(&mut self, row: &[u16]) -> Vec<u16> {
        row.iter().map(|&wire| self.not(wire)).collect()
    }

    /// A row one stage later.
    pub fn registers(&mut self, row: &[u16]) -> Vec<u16> {
        row.iter().map(|&wire| self.register(wire)).collect()
    }

    /// Random bits of one gadget.
    pub fn pairs(&self) -> usize {
        self.d * (self.d - 1) / 2
    }

    /// Wires that one AND makes.
    pub fn and_wires(&self) -> usize {
        7 * self.d * (self.d - 1) + 4 * self.d
    }

    /// Wires that one REF makes.
    pub fn refresh_wires(&self) -> usize {
        self.pairs() + 2 * self.d
    }

    pub fn and(&mut self, a: &[u16], b: &[u16]) -> Vec<u16> {
        let stage = self.place(a[0]).stage;
        self.frame(&[&[6, self.randoms as u16], a, b].concat());
        self.randoms += self.pairs();
        self.inner(self.and_wires() - self.d);
        self.open_row(stage + 1, false)
    }

    pub fn refresh(&mut self, row: &[u16]) -> Vec<u16> {
        let stage = self.place(row[0]).stage;
        self.frame(&[&[7, self.randoms as u16], row].concat());
        self.randoms += self.pairs();
        self.inner(self.refresh_wires() - self.d);
        self.open_row(stage + 1, true)
    }

    /// OUT as it stands; the checker asks for registered wires.
    pub fn output(&mut self, row: &[u16]) {
        self.frame(&[&[8], row].concat());
    }

    /// The words of each frame.
    pub fn lines(&self) -> Vec<Vec<u16>> {
        let ends = self.frames[1..].iter().copied().chain([self.table.len()]);
        self.frames.iter().zip(ends).map(|(&from, to)| self.table[from..to].to_vec()).collect()
    }

    pub fn text(&self) -> String {
        text(&self.lines())
    }
}

/// Lines of words as the text reader takes them.
pub fn text(lines: &[Vec<u16>]) -> String {
    let line = |words: &Vec<u16>| {
        let words: Vec<String> = words.iter().map(|word| format!("{word:04X}")).collect();
        words.join(" ") + "\n"
    };
    lines.iter().map(line).collect()
}
