//! Writes random scenes in the line language of `trials`: `scenes SEED COUNT`.
//!
//! Each scene begins with `new` and depends on its number alone (SEED, SEED + 1, ..). A sketch of the store is kept, so
//! that most calls are such as can be accepted; it need not be right, since only the two programs that run the lines are
//! compared. Some calls name what has gone, what is of another sort, or an index that there is not.

struct Rng(u64);

impl Rng {
    fn next(&mut self) -> u64 {
        // splitmix64
        self.0 = self.0.wrapping_add(0x9E37_79B9_7F4A_7C15);
        let mut z = self.0;
        z = (z ^ (z >> 30)).wrapping_mul(0xBF58_476D_1CE4_E5B9);
        z = (z ^ (z >> 27)).wrapping_mul(0x94D0_49BB_1331_11EB);
        z ^ (z >> 31)
    }
    fn below(&mut self, n: usize) -> usize {
        if n == 0 { 0 } else { (self.next() % n as u64) as usize }
    }
    /// True once in n.
    fn once_in(&mut self, n: usize) -> bool {
        self.below(n) == 0
    }
    fn pick<T: Copy>(&mut self, from: &[T]) -> Option<T> {
        if from.is_empty() { None } else { Some(from[self.below(from.len())]) }
    }
}

/// An operation or a block, by its number in the sketch.
type Id = usize;

struct Thing {
    name: String,
    live: bool,
    /// An operation: its block. A block: the operation that it lies in.
    parent: Option<Id>,
    is_block: bool,
    /// The number of results or arguments.
    values: usize,
    /// The number of regions; `region` is the one that a block lies in.
    regions: usize,
    region: usize,
    operands: Vec<(Id, usize)>,
}

struct Scene {
    rng: Rng,
    things: Vec<Thing>,
    lines: Vec<String>,
    /// Records so far, about; the recorder of the other side has room for 1024.
    records: usize,
    /// How often something that is not there is named: once in so many.
    faults: usize,
    /// Operations go to the ends of blocks, so that most uses stand behind their definitions and large parts can be erased
    /// in the Rust.
    tidy: bool,
    /// The block that the insertion point is in.
    point: Option<Id>,
    /// The line that is being written names something that is not there: it will be refused.
    fault: bool,
}

/// Well below 512 operations, 128 blocks and 128 regions.
const OPERATIONS: usize = 60;
const BLOCKS: usize = 30;
const RECORDS: usize = 600;

impl Scene {
    fn live(&self, is_block: bool) -> Vec<Id> {
        (0..self.things.len()).filter(|i| self.things[*i].live && self.things[*i].is_block == is_block).collect()
    }
    /// Is there something live with the name of this one?
    fn has_live_name(&self, id: Id) -> bool {
        self.things.iter().any(|other| other.live && other.name == self.things[id].name)
    }
    fn inside(&self, mut id: Id, of: Id) -> bool {
        loop {
            if id == of {
                return true;
            }
            match self.things[id].parent {
                Some(up) => id = up,
                None => return false,
            }
        }
    }
    /// One of `from`; seldom one with a large part, since not much is left when that is erased.
    fn pick_small(&mut self, from: &[Id]) -> Option<Id> {
        let id = self.rng.pick(from)?;
        if self.part(id).len() > 4 && !self.rng.once_in(5) { None } else { Some(id) }
    }
    /// Writes a line of a call; is it one that should be accepted?
    fn call(&mut self, line: String) -> bool {
        self.lines.push(line);
        !std::mem::take(&mut self.fault)
    }
    /// What is erased with `id`.
    fn part(&self, id: Id) -> Vec<Id> {
        (0..self.things.len()).filter(|i| self.things[*i].live && self.inside(*i, id)).collect()
    }
    fn erased(&mut self, part: &[Id]) -> bool {
        let used = self.things.iter().enumerate().any(|(i, thing)| {
            thing.live && !part.contains(&i) && thing.operands.iter().any(|operand| part.contains(&operand.0))
        });
        if !used {
            for id in part {
                self.things[*id].live = false;
            }
            self.records += part.len() + 2;
        }
        !used
    }
    fn exchange(&mut self, old: (Id, usize), new: (Id, usize)) {
        for thing in &mut self.things {
            for operand in &mut thing.operands {
                if *operand == old {
                    *operand = new;
                }
            }
        }
        self.records += 1;
    }

    /// A name, now and then of something that is not there or of another sort.
    fn name(&mut self, id: Option<Id>) -> String {
        let Some(id) = id else { return "nobody".to_string() };
        if self.rng.once_in(self.faults) {
            self.fault = true;
            let wrong: Vec<Id> = (0..self.things.len())
                .filter(|i| !self.has_live_name(*i) || self.things[*i].is_block != self.things[id].is_block)
                .collect();
            return match self.rng.pick(&wrong) {
                Some(any) if !self.rng.once_in(4) => self.things[any].name.clone(),
                _ => "nobody".to_string(),
            };
        }
        self.things[id].name.clone()
    }
    fn op_name(&mut self) -> (Option<Id>, String) {
        let all = self.live(false);
        let id = self.rng.pick(&all);
        (id, self.name(id))
    }
    fn all_values(&self) -> Vec<(Id, usize)> {
        let mut all = vec![];
        for (id, thing) in self.things.iter().enumerate() {
            if thing.live {
                all.extend((0..thing.values).map(|i| (id, i)));
            }
        }
        all
    }
    fn value(&mut self) -> Option<(Id, usize)> {
        let all = self.all_values();
        // Often one of the last few, so that values are shared and used near where they are made.
        if self.rng.once_in(2) && all.len() > 4 { self.rng.pick(&all[all.len() - 4..]) } else { self.rng.pick(&all) }
    }
    fn value_name(&mut self, value: Option<(Id, usize)>) -> String {
        let Some((id, index)) = value else { return "nobody.0".to_string() };
        let told = if self.rng.once_in(self.faults * 2) { self.rng.below(6) } else { index };
        self.fault |= told >= self.things[id].values;
        format!("{}.{told}", self.name(Some(id)))
    }
    fn type_number(&mut self) -> u32 {
        if self.rng.once_in(12) { self.rng.next() as u32 } else { self.rng.below(9) as u32 }
    }
    fn types(&mut self, n: usize) -> String {
        (0..n).map(|_| format!(" {}", self.type_number())).collect()
    }
    /// A name that nothing has, or at times one of something that has gone.
    fn new_name(&mut self, letter: &str) -> String {
        let gone: Vec<Id> = (0..self.things.len()).filter(|i| !self.has_live_name(*i)).collect();
        match self.rng.pick(&gone) {
            Some(id) if self.rng.once_in(6) => self.things[id].name.clone(),
            _ => format!("{letter}{}", self.things.len()),
        }
    }

    fn make(&mut self) {
        if self.live(false).len() >= OPERATIONS {
            return;
        }
        let operands: Vec<_> = (0..self.rng.below(4)).filter_map(|_| self.value()).collect();
        let name = self.new_name("o");
        let named: String = operands.iter().map(|value| format!(" {}", self.value_name(Some(*value)))).collect();
        let values = [0, 1, 1, 1, 2, 3, 4][self.rng.below(7)];
        let types = self.types(values);
        let regions = [0, 0, 0, 1, 1, 2, 3][self.rng.below(7)];
        let regions = if self.things.is_empty() { 1 + self.rng.below(2) } else { regions };
        let marks: String = (0..regions).map(|_| if self.rng.once_in(2) { " graph" } else { " ssa" }).collect();
        let slash = if regions > 0 { " /" } else { "" };
        let kind = self.rng.below(400);
        let note = if self.rng.once_in(9) { self.rng.next() as u32 } else { self.rng.below(9) as u32 };
        if !self.call(format!("make {name} {kind} {note}{named} ->{types}{slash}{marks}")) {
            return;
        }
        self.things.push(Thing {
            name,
            live: true,
            parent: None,
            is_block: false,
            values,
            regions,
            region: 0,
            operands,
        });
        // Most are put somewhere at once.
        if !self.rng.once_in(4) {
            self.insert(self.things.len() - 1);
        }
    }

    fn block(&mut self) {
        let blocks = self.live(true);
        if blocks.len() >= BLOCKS {
            return;
        }
        let name = self.new_name("b");
        let values = self.rng.below(4);
        let owners: Vec<Id> = self.live(false).into_iter().filter(|i| self.things[*i].regions > 0).collect();
        let (place, parent, region) = if self.rng.once_in(3) && !blocks.is_empty() {
            let by = self.rng.pick(&blocks);
            let word = if self.rng.once_in(2) { "after" } else { "before" };
            let thing = &self.things[by.unwrap()];
            let (parent, region) = (thing.parent, thing.region);
            (format!("{word} {}", self.name(by)), parent, region)
        } else {
            let Some(owner) = self.rng.pick(&owners) else { return };
            let word = if self.rng.once_in(3) { "start" } else { "end" };
            let region = self.rng.below(self.things[owner].regions);
            let told = if self.rng.once_in(self.faults * 2) { self.rng.below(5) } else { region };
            self.fault |= told != region;
            (format!("{word} {}/{told}", self.name(Some(owner))), Some(owner), region)
        };
        let unset = self.rng.once_in(self.faults * 4);
        self.fault |= unset;
        let place = if unset { "unset -".to_string() } else { place };
        let types = self.types(values);
        if !self.call(format!("block {name} {place} ->{types}")) {
            return;
        }
        self.records += 1;
        self.things.push(Thing {
            name,
            live: true,
            parent,
            is_block: true,
            values,
            regions: 0,
            region,
            operands: vec![],
        });
        self.point = Some(self.things.len() - 1);
    }

    /// A point for an operation, and the block that it is in.
    fn place(&mut self, of: Option<Id>) -> (String, Option<Id>) {
        if self.rng.once_in(self.faults * 4) {
            self.fault = true;
            return ("unset -".to_string(), None);
        }
        let fits = |scene: &Scene, id: Id| of.is_none_or(|op| !scene.inside(id, op));
        let blocks: Vec<Id> = self.live(true).into_iter().filter(|i| fits(self, *i)).collect();
        let linked: Vec<Id> =
            self.live(false).into_iter().filter(|i| self.things[*i].parent.is_some() && fits(self, *i)).collect();
        // Now and then a place that does not fit is told.
        if self.rng.once_in(self.faults) {
            self.fault = true;
            let any = self.rng.below(self.things.len());
            let word = ["start", "end", "after", "before"][self.rng.below(4)];
            return (format!("{word} {}", self.things[any].name), None);
        }
        if self.tidy || linked.is_empty() || self.rng.once_in(2) {
            let block = self.rng.pick(&blocks);
            let word = if self.tidy || !self.rng.once_in(3) { "end" } else { "start" };
            (format!("{word} {}", self.name(block)), block)
        } else {
            let by = self.rng.pick(&linked);
            let word = if self.rng.once_in(2) { "after" } else { "before" };
            let block = self.things[by.unwrap()].parent;
            (format!("{word} {}", self.name(by)), block)
        }
    }

    /// Puts an operation somewhere.
    fn insert(&mut self, op: Id) {
        if self.live(true).is_empty() {
            return;
        }
        if !self.rng.once_in(6) {
            let (place, block) = self.place(Some(op));
            self.point = block;
            self.lines.push(format!("point {place}"));
            self.fault = false;
        }
        let word = if self.rng.once_in(2) { "insert" } else { "append" };
        let name = self.name(Some(op));
        let named = self.call(format!("{word} {name}"));
        if let Some(block) = self.point
            && named
            && self.things[block].live
            && !self.inside(block, op)
            && self.things[op].parent.is_none()
        {
            self.things[op].parent = Some(block);
            self.records += 1;
        }
    }

    fn change(&mut self) {
        match self.rng.below(20) {
            0..=4 => self.make(),
            5 | 6 => self.block(),
            7 => {
                let loose: Vec<Id> =
                    self.live(false).into_iter().filter(|i| self.things[*i].parent.is_none()).collect();
                if let Some(op) = self.rng.pick(&loose) {
                    self.insert(op);
                }
            }
            8 => {
                let linked: Vec<Id> =
                    self.live(false).into_iter().filter(|i| self.things[*i].parent.is_some()).collect();
                let Some(op) = self.rng.pick(&linked) else { return };
                let name = self.name(Some(op));
                if self.call(format!("unlink {name}")) {
                    self.things[op].parent = None;
                    self.records += 1;
                }
            }
            9..=11 => {
                let linked: Vec<Id> =
                    self.live(false).into_iter().filter(|i| self.things[*i].parent.is_some()).collect();
                let Some(op) = self.rng.pick(&linked) else { return };
                let (place, block) = self.place(Some(op));
                let name = self.name(Some(op));
                if self.call(format!("move {name} {place}")) && block.is_some() {
                    self.things[op].parent = block;
                    self.records += 2;
                }
            }
            12 | 13 => {
                let value = self.value();
                let name = self.value_name(value);
                if self.rng.once_in(8) {
                    self.lines.push(format!("retype {name} {}", self.rng.below(5)));
                    self.records += 4;
                } else {
                    let to = self.type_number();
                    self.lines.push(format!("type {name} {to}"));
                    self.records += 1;
                }
            }
            14 => {
                let (old, new) = (self.value(), self.value());
                if self.tidy && old < new {
                    return;
                }
                let line = format!("uses {} {}", self.value_name(old), self.value_name(new));
                if self.call(line)
                    && let (Some(old), Some(new)) = (old, new)
                {
                    self.exchange(old, new);
                }
            }
            15 | 16 => self.replace(),
            17 | 18 => {
                // Most often one that nothing uses.
                let mut all = self.live(false);
                if !self.rng.once_in(3) {
                    all.retain(|i| !self.things.iter().any(|t| t.live && t.operands.iter().any(|o| o.0 == *i)));
                }
                let Some(op) = self.pick_small(&all) else { return };
                let name = self.name(Some(op));
                if self.call(format!("erase {name}")) {
                    let part = self.part(op);
                    self.erased(&part);
                }
            }
            _ => {
                if !self.rng.once_in(2) {
                    return;
                }
                if self.rng.once_in(2) {
                    let blocks = self.live(true);
                    let Some(block) = self.rng.pick(&blocks) else { return };
                    let name = self.name(Some(block));
                    if self.call(format!("erase {name}")) {
                        let part = self.part(block);
                        self.erased(&part);
                    }
                } else {
                    let owners: Vec<Id> =
                        self.live(false).into_iter().filter(|i| self.things[*i].regions > 0).collect();
                    let Some(owner) = self.rng.pick(&owners) else { return };
                    let region = self.rng.below(self.things[owner].regions);
                    let name = self.name(Some(owner));
                    if !self.call(format!("erase {name}/{region}")) {
                        return;
                    }
                    let part: Vec<Id> = (0..self.things.len())
                        .filter(|b| {
                            let b = &self.things[*b];
                            b.live && b.is_block && b.parent == Some(owner) && b.region == region
                        })
                        .flat_map(|b| self.part(b))
                        .collect();
                    if self.erased(&part) {
                        self.things[owner].regions -= 1;
                        for b in &mut self.things {
                            if b.is_block && b.parent == Some(owner) && b.region > region {
                                b.region -= 1;
                            }
                        }
                    }
                }
            }
        }
    }

    fn replace(&mut self) {
        let all = self.live(false);
        let Some(op) = self.pick_small(&all) else { return };
        let name = self.name(Some(op));
        let count = self.things[op].values;
        let news: Vec<(Id, usize)>;
        if self.rng.once_in(2) {
            let fitting: Vec<Id> =
                self.live(false).into_iter().filter(|i| *i != op && self.things[*i].values == count).collect();
            let mut new = self.rng.pick(&fitting);
            if self.rng.once_in(self.faults) {
                new = Some(op);
            }
            let Some(new) = new else { return };
            let new_name = self.name(Some(new));
            if !self.call(format!("replace {name} {new_name}")) {
                return;
            }
            news = (0..count).map(|i| (new, i)).collect();
        } else {
            let told = if self.rng.once_in(self.faults * 2) { self.rng.below(5) } else { count };
            news = (0..told).filter_map(|_| self.value()).collect();
            let named: String = news.iter().map(|v| format!(" {}", self.value_name(Some(*v)))).collect();
            if !self.call(format!("values {name}{named}")) {
                return;
            }
        }
        let part = self.part(op);
        if news.len() != count || news.iter().any(|v| part.contains(&v.0)) {
            return;
        }
        // Refused where something inside is used outside; the uses of its own results move away.
        let before: Vec<_> = self.things.iter().map(|thing| thing.operands.clone()).collect();
        for (index, new) in news.into_iter().enumerate() {
            self.exchange((op, index), new);
        }
        if !self.erased(&part) {
            for (thing, operands) in self.things.iter_mut().zip(before) {
                thing.operands = operands;
            }
        }
    }

    fn read(&mut self) {
        let (_, op) = self.op_name();
        let blocks = self.live(true);
        let block = self.rng.pick(&blocks);
        let block = self.name(block);
        let value = self.value();
        let value = self.value_name(value);
        self.lines.push(match self.rng.below(8) {
            0 | 1 => format!("walk {op}"),
            2 => format!("show {op}"),
            3 => format!("{} {op}", ["next", "prev", "parent"][self.rng.below(3)]),
            4 => format!("{} {block}", ["first", "last", "next-block", "prev-block"][self.rng.below(4)]),
            5 => format!("typeof {value}"),
            _ => "records".to_string(),
        });
    }

    /// All that can be read of what lives, and a little of what has gone.
    fn read_all(&mut self) {
        for id in 0..self.things.len() {
            let name = self.things[id].name.clone();
            if !self.things[id].live {
                if self.rng.once_in(8) {
                    self.lines.push(format!("{} {name}", if self.rng.once_in(2) { "show" } else { "first" }));
                }
                continue;
            }
            if self.things[id].is_block {
                for word in ["first", "last", "next-block", "prev-block"] {
                    self.lines.push(format!("{word} {name}"));
                }
            } else {
                self.lines.push(format!("show {name}"));
                for word in ["next", "prev", "parent"] {
                    self.lines.push(format!("{word} {name}"));
                }
                if self.things[id].parent.is_none() {
                    self.lines.push(format!("walk {name}"));
                }
            }
            for index in 0..self.things[id].values {
                self.lines.push(format!("typeof {name}.{index}"));
            }
        }
        self.lines.push("records".to_string());
    }
}

fn scene(seed: u64) -> Vec<String> {
    let mut rng = Rng(seed.wrapping_mul(0xD134_2543_DE82_EF95));
    let faults = [8, 20, 40][rng.below(3)];
    let tidy = rng.once_in(3);
    let length = 5 + rng.below(115);
    let mut scene = Scene {
        rng,
        things: vec![],
        lines: vec!["new".to_string()],
        records: 0,
        faults,
        tidy,
        point: None,
        fault: false,
    };
    scene.make();
    scene.block();
    while scene.lines.len() < length && scene.records < RECORDS {
        scene.change();
        scene.fault = false;
        if scene.rng.once_in(8) {
            scene.read();
        }
    }
    scene.read_all();
    // At the end large parts go: all that stands alone and holds something.
    for id in 0..scene.things.len() {
        let thing = &scene.things[id];
        if thing.live && !thing.is_block && thing.parent.is_none() && thing.regions > 0 && scene.rng.once_in(2) {
            let name = thing.name.clone();
            scene.lines.push(format!("erase {name}"));
            scene.lines.push("records".to_string());
        }
    }
    scene.lines
}

fn main() {
    let words: Vec<u64> = std::env::args().skip(1).map(|word| word.parse().expect("a number")).collect();
    let [seed, count] = words[..] else {
        eprintln!("scenes SEED COUNT");
        std::process::exit(2)
    };
    for number in seed..seed + count {
        println!("# scene {number}");
        println!("{}", scene(number).join("\n"));
    }
}
